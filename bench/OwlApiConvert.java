import java.io.File;
import java.io.FileOutputStream;
import java.util.Map;
import org.semanticweb.owlapi.apibinding.OWLManager;
import org.semanticweb.owlapi.formats.FunctionalSyntaxDocumentFormat;
import org.semanticweb.owlapi.formats.ManchesterSyntaxDocumentFormat;
import org.semanticweb.owlapi.formats.TurtleDocumentFormat;
import org.semanticweb.owlapi.model.OWLDocumentFormat;
import org.semanticweb.owlapi.model.OWLOntology;

/** Translates a document with the OWL API to ofn, ttl or omn, and prints how many axioms it read. */
public final class OwlApiConvert {
    private static final Map<String, OWLDocumentFormat> FORMATS = Map.of(
        "ofn", new FunctionalSyntaxDocumentFormat(),
        "ttl", new TurtleDocumentFormat(),
        "omn", new ManchesterSyntaxDocumentFormat());

    public static void main(String[] words) throws Exception {
        OWLOntology ontology =
            OWLManager.createOWLOntologyManager().loadOntologyFromOntologyDocument(new File(words[1]));
        try (FileOutputStream out = new FileOutputStream(words[2])) {
            OWLDocumentFormat format = FORMATS.get(words[0]);
            if (ontology.getFormat() != null && ontology.getFormat().isPrefixOWLDocumentFormat()) {
                format.asPrefixOWLDocumentFormat().copyPrefixesFrom(ontology.getFormat().asPrefixOWLDocumentFormat());
            }
            ontology.saveOntology(format, out);
        }
        System.out.println("axioms " + ontology.getAxiomCount());
    }
}
