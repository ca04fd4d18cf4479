package seen;

import hard.Course;
import javax.xml.parsers.DocumentBuilderFactory;
import org.w3c.dom.Document;
import org.w3c.dom.Element;

/**
 * Makes each receipt as an element of its one document, with an identifier by which it is found, and takes it out when
 * it is printed. The document keeps all that ever had an identifier.
 */
final class ReceiptService {
    static final int RECEIPTS_A_DAY = 1_700 * Course.SCALE;

    private final Document document;
    private final Element receipts;

    private ReceiptService() throws Exception {
        document = DocumentBuilderFactory.newInstance().newDocumentBuilder().newDocument();
        receipts = document.createElement("receipts");
        document.appendChild(receipts);
    }

    private void print(String identifier) {
        Element receipt = document.createElement("receipt");
        receipt.setAttribute("number", identifier);
        receipt.setIdAttribute("number", true);
        for (int line = 0; line < 3; line++) {
            Element article = document.createElement("article");
            article.setTextContent("article " + line + " of " + identifier);
            receipt.appendChild(article);
        }
        receipts.appendChild(receipt);
        receipts.removeChild(document.getElementById(identifier));
    }

    private void day(int day) {
        for (int number = 0; number < RECEIPTS_A_DAY; number++) {
            print("receipt-" + day + "-" + number);
        }
    }

    public static void main(String[] words) throws Exception {
        Catalog.run(words, new ReceiptService()::day);
    }
}
