import java.io.BufferedReader;
import java.io.File;
import java.io.InputStreamReader;
import java.nio.charset.StandardCharsets;
import org.semanticweb.owlapi.apibinding.OWLManager;
import org.semanticweb.owlapi.formats.FunctionalSyntaxDocumentFormat;
import org.semanticweb.owlapi.formats.ManchesterSyntaxDocumentFormat;
import org.semanticweb.owlapi.formats.PrefixDocumentFormatImpl;
import org.semanticweb.owlapi.io.FileDocumentSource;
import org.semanticweb.owlapi.model.IRI;
import org.semanticweb.owlapi.model.MissingImportHandlingStrategy;
import org.semanticweb.owlapi.model.OWLDocumentFormat;
import org.semanticweb.owlapi.model.OWLEntity;
import org.semanticweb.owlapi.model.OWLOntology;
import org.semanticweb.owlapi.model.OWLOntologyManager;

/**
 * Reads lines `read NAME`, `again NAME` and `write NAME`, and prints a line for each: `done`, else
 * `unread` and why. What is to be read is in Manchester Syntax, and is written to NAME.ofn in
 * Functional-Style Syntax, and so is what is to be written again, which is in Functional-Style Syntax.
 * What is to be written is of any syntax, and is written to NAME.omn in Manchester Syntax, and to
 * NAME.ofn with a declaration of each entity, as there is a frame of each. Anonymous individuals of
 * what is written again keep their labels.
 */
public final class OwlApiManchester {
    private static OWLOntology load(String name, OWLDocumentFormat format) throws Exception {
        OWLOntologyManager manager = OWLManager.createOWLOntologyManager();
        manager.getOntologyConfigurator().setMissingImportHandlingStrategy(MissingImportHandlingStrategy.SILENT);
        if (format == null) {
            return manager.loadOntologyFromOntologyDocument(new File(name));
        }
        manager.getOntologyConfigurator().withRemapAllAnonymousIndividualsIds(false);
        return manager.loadOntologyFromOntologyDocument(new FileDocumentSource(new File(name), format));
    }

    private static OWLDocumentFormat format(String word) {
        switch (word) {
            case "read":
                return new ManchesterSyntaxDocumentFormat();
            case "again":
                return new FunctionalSyntaxDocumentFormat();
            default:
                return null;
        }
    }

    /** What a parser met that it didn't expect, else the first line of the message. */
    private static String why(String message) {
        String[] lines = message.split("\n");
        for (String line : lines) {
            if (line.startsWith("Encountered ")) {
                return line;
            }
        }
        return lines[0];
    }

    private static void save(OWLOntology ontology, PrefixDocumentFormatImpl format, String name) throws Exception {
        format.setAddMissingTypes(false);
        ontology.getOWLOntologyManager().setOntologyFormat(ontology, format);
        ontology.saveOntology(format, IRI.create(new File(name)));
    }

    private static String answer(String word, String name) {
        try {
            OWLOntology ontology = load(name, format(word));
            if (word.equals("write")) {
                save(ontology, new ManchesterSyntaxDocumentFormat(), name + ".omn");
                for (OWLEntity entity : (Iterable<OWLEntity>) ontology.signature()::iterator) {
                    ontology.addAxiom(ontology.getOWLOntologyManager().getOWLDataFactory().getOWLDeclarationAxiom(entity));
                }
            }
            save(ontology, new FunctionalSyntaxDocumentFormat(), name + ".ofn");
            return "done";
        } catch (Exception | StackOverflowError error) {
            return "unread " + error.getClass().getSimpleName() + " " + why(String.valueOf(error.getMessage()));
        }
    }

    public static void main(String[] words) throws Exception {
        BufferedReader lines = new BufferedReader(new InputStreamReader(System.in, StandardCharsets.UTF_8));
        for (String line = lines.readLine(); line != null; line = lines.readLine()) {
            String[] parts = line.split(" ");
            System.out.println(answer(parts[0], parts[1]));
        }
    }
}
