package beside;

import hard.Course;
import java.io.StringReader;
import org.apache.xerces.parsers.XMLGrammarPreparser;
import org.apache.xerces.util.XMLGrammarPoolImpl;
import org.apache.xerces.xni.grammars.XMLGrammarDescription;
import org.apache.xerces.xni.parser.XMLInputSource;

/** Validates documents by Xerces. Each partner's schema has a namespace with a date, so the pool keeps all of them. */
final class SchemaService {
    static final int SCHEMAS_A_DAY = 300 * Course.SCALE;

    private final XMLGrammarPoolImpl pool = new XMLGrammarPoolImpl();

    private XMLGrammarPreparser parser() {
        XMLGrammarPreparser parser = new XMLGrammarPreparser();
        parser.registerPreparser(XMLGrammarDescription.XML_SCHEMA, null);
        parser.setProperty("http://apache.org/xml/properties/internal/grammar-pool", pool);
        parser.setFeature("http://xml.org/sax/features/namespaces", true);
        parser.setFeature("http://xml.org/sax/features/validation", true);
        parser.setFeature("http://apache.org/xml/features/validation/schema", true);
        return parser;
    }

    private void read(String namespace) throws Exception {
        String schema = "<xs:schema xmlns:xs='http://www.w3.org/2001/XMLSchema' targetNamespace='" + namespace
                + "'><xs:element name='order'><xs:complexType><xs:sequence>"
                + "<xs:element name='article' type='xs:string' maxOccurs='unbounded'/>"
                + "<xs:element name='price' type='xs:decimal'/>"
                + "</xs:sequence></xs:complexType></xs:element></xs:schema>";
        XMLInputSource source = new XMLInputSource(null, namespace + ".xsd", null, new StringReader(schema), null);
        pool.putGrammar(parser().preparseGrammar(XMLGrammarDescription.XML_SCHEMA, source));
    }

    private void day(int day) throws Exception {
        for (int number = 0; number < SCHEMAS_A_DAY; number++) {
            read("urn:partner:" + number % 7 + ":day:" + day + ":" + number);
        }
    }

    public static void main(String[] words) throws Exception {
        Catalog.run(words, new SchemaService()::day);
    }
}
