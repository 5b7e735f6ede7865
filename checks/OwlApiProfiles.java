import java.io.BufferedReader;
import java.io.File;
import java.io.InputStreamReader;
import java.nio.charset.StandardCharsets;
import java.util.TreeSet;
import org.semanticweb.owlapi.apibinding.OWLManager;
import org.semanticweb.owlapi.formats.FunctionalSyntaxDocumentFormat;
import org.semanticweb.owlapi.model.IRI;
import org.semanticweb.owlapi.model.MissingImportHandlingStrategy;
import org.semanticweb.owlapi.model.OWLOntology;
import org.semanticweb.owlapi.model.OWLOntologyManager;
import org.semanticweb.owlapi.profiles.OWLProfileViolation;
import org.semanticweb.owlapi.profiles.Profiles;

/**
 * Reads lines of names, a document behind what it imports, and prints a line for each: for OWL 2
 * DL, EL, QL and RL `yes`, or the kinds of violations that the OWL API reports, else `unread` and
 * why. What is neither .ofn nor .ttl is written beside it in Functional-Style Syntax first.
 */
public final class OwlApiProfiles {
    private static final Profiles[] PROFILES = {Profiles.OWL2_DL, Profiles.OWL2_EL, Profiles.OWL2_QL, Profiles.OWL2_RL};

    private static OWLOntology load(String... names) throws Exception {
        OWLOntologyManager manager = OWLManager.createOWLOntologyManager();
        manager.getOntologyConfigurator().setMissingImportHandlingStrategy(MissingImportHandlingStrategy.SILENT);
        OWLOntology last = null;
        for (String name : names) {
            last = manager.loadOntologyFromOntologyDocument(new File(name));
        }
        return last;
    }

    private static OWLOntology written(String name) throws Exception {
        OWLOntology ontology = load(name);
        FunctionalSyntaxDocumentFormat format = new FunctionalSyntaxDocumentFormat();
        format.setAddMissingTypes(false);
        ontology.getOWLOntologyManager().setOntologyFormat(ontology, format);
        ontology.saveOntology(format, IRI.create(new File(name + ".ofn")));
        return load(name + ".ofn");
    }

    private static String answers(String... names) {
        try {
            OWLOntology ontology = names[0].matches(".*\\.(ofn|ttl)") ? load(names) : written(names[0]);
            StringBuilder line = new StringBuilder();
            for (Profiles profile : PROFILES) {
                TreeSet<String> kinds = new TreeSet<>();
                for (OWLProfileViolation violation : profile.checkOntology(ontology).getViolations()) {
                    kinds.add(violation.getClass().getSimpleName());
                }
                line.append(kinds.isEmpty() ? "yes" : String.join(",", kinds)).append(' ');
            }
            return line.toString().trim();
        } catch (Exception | StackOverflowError error) {
            return "unread " + error.getClass().getSimpleName();
        }
    }

    public static void main(String[] words) throws Exception {
        BufferedReader lines = new BufferedReader(new InputStreamReader(System.in, StandardCharsets.UTF_8));
        for (String line = lines.readLine(); line != null; line = lines.readLine()) {
            System.out.println(answers(line.split(" ")));
        }
    }
}
