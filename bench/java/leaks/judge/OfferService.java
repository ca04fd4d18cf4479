package judge;

import hard.Course;
import java.io.StringReader;
import javax.xml.parsers.SAXParser;
import javax.xml.parsers.SAXParserFactory;
import org.xml.sax.Attributes;
import org.xml.sax.InputSource;
import org.xml.sax.helpers.DefaultHandler;

/**
 * Reads offers as XML by one parser of the JDK, because it is slow to make. An article's element has its number in the
 * name. The parser has each name that it ever read in its table of symbols.
 */
final class OfferService {
    static final int DOCUMENTS_A_DAY = 90 * Course.SCALE;
    static final int ARTICLES = 100;

    static final class Prices extends DefaultHandler {
        private long cents;

        @Override
        public void startElement(String space, String local, String name, Attributes attributes) {
            if (attributes.getLength() > 0) {
                cents += Long.parseLong(attributes.getValue("cents"));
            }
        }
    }

    private final SAXParser parser;
    private final Prices prices = new Prices();

    private OfferService() throws Exception {
        parser = SAXParserFactory.newInstance().newSAXParser();
    }

    private void day(int day) throws Exception {
        for (int number = 0; number < DOCUMENTS_A_DAY; number++) {
            StringBuilder document = new StringBuilder("<offers>");
            for (int article = 0; article < ARTICLES; article++) {
                document.append("<article-").append(day).append('-').append(number * ARTICLES + article)
                        .append(" cents='995'/>");
            }
            parser.parse(new InputSource(new StringReader(document.append("</offers>").toString())), prices);
        }
    }

    public static void main(String[] words) throws Exception {
        Catalog.run(words, new OfferService()::day);
    }
}
