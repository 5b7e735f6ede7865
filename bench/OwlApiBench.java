import com.sun.management.OperatingSystemMXBean;
import java.io.File;
import java.lang.management.ManagementFactory;
import java.util.Locale;
import org.semanticweb.owlapi.apibinding.OWLManager;
import org.semanticweb.owlapi.formats.FunctionalSyntaxDocumentFormat;
import org.semanticweb.owlapi.formats.ManchesterSyntaxDocumentFormat;
import org.semanticweb.owlapi.formats.PrefixDocumentFormatImpl;
import org.semanticweb.owlapi.formats.TurtleDocumentFormat;
import org.semanticweb.owlapi.io.FileDocumentSource;
import org.semanticweb.owlapi.model.IRI;
import org.semanticweb.owlapi.model.OWLOntology;
import org.semanticweb.owlapi.profiles.OWLProfileReport;
import org.semanticweb.owlapi.profiles.Profiles;

/**
 * Does what calls of owl do, with the OWL API: TIMES {JOB}, where a job is three words. A document is of the
 * syntax that its suffix says, .ofn, .ttl or .omn, and imports nothing.
 *
 * write SOURCE TARGET reads a document, and writes it to another one, with its prefixes.
 * check PROFILE SOURCE reads a document, and checks it against a profile, dl, el, ql or rl.
 *
 * All jobs are done in turn, so many times. A line for each has the seconds of the processor that all threads
 * of the JVM took, and `written`, `yes`, or `no` and how many violations are reported.
 */
public final class OwlApiBench {
    private static PrefixDocumentFormatImpl format(String name) {
        switch (name.substring(name.lastIndexOf('.'))) {
            case ".ofn":
                return new FunctionalSyntaxDocumentFormat();
            case ".ttl":
                return new TurtleDocumentFormat();
            case ".omn":
                return new ManchesterSyntaxDocumentFormat();
            default:
                throw new IllegalArgumentException(name);
        }
    }

    private static OWLOntology read(String name) throws Exception {
        return OWLManager.createOWLOntologyManager()
            .loadOntologyFromOntologyDocument(new FileDocumentSource(new File(name), format(name)));
    }

    private static String write(String source, String target) throws Exception {
        OWLOntology ontology = read(source);
        PrefixDocumentFormatImpl format = format(target);
        format.copyPrefixesFrom(ontology.getFormat().asPrefixOWLDocumentFormat());
        ontology.saveOntology(format, IRI.create(new File(target)));
        return "written";
    }

    private static String check(String profile, String source) throws Exception {
        OWLProfileReport report = Profiles.valueOf("OWL2_" + profile.toUpperCase()).checkOntology(read(source));
        return report.isInProfile() ? "yes" : "no; violations " + report.getViolations().size();
    }

    private static double seconds() {
        return ((OperatingSystemMXBean) ManagementFactory.getOperatingSystemMXBean()).getProcessCpuTime() / 1e9;
    }

    public static void main(String[] words) throws Exception {
        for (int times = Integer.parseInt(words[0]); times > 0; times--) {
            for (int at = 1; at < words.length; at += 3) {
                double begun = seconds();
                String answer = words[at].equals("write") ? write(words[at + 1], words[at + 2]) : check(words[at + 1], words[at + 2]);
                System.out.printf(Locale.ROOT, "%.2f %s%n", seconds() - begun, answer);
            }
        }
    }
}
