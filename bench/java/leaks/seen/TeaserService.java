package seen;

import hard.Course;
import java.util.HashMap;
import java.util.Map;
import org.jsoup.Jsoup;
import org.jsoup.nodes.Element;

/** Keeps the title of each page of its partners, as an element of jsoup, which has the whole page above it. */
final class TeaserService {
    static final int PAGES_A_DAY = 120 * Course.SCALE;
    static final int PARAGRAPHS = 30;

    private final Map<String, Element> teasers = new HashMap<>();

    private static String page(String address) {
        StringBuilder page = new StringBuilder("<html><body><h1>Title of ").append(address).append("</h1>");
        for (int number = 0; number < PARAGRAPHS; number++) {
            page.append("<p class=text>Paragraph ").append(number).append(" of ").append(address).append("</p>");
        }
        return page.append("</body></html>").toString();
    }

    private void read(String address) {
        teasers.put(address, Jsoup.parse(page(address)).selectFirst("h1"));
    }

    private void day(int day) {
        for (int number = 0; number < PAGES_A_DAY; number++) {
            read("https://partner.example.org/" + day + "/" + number);
        }
    }

    public static void main(String[] words) {
        Catalog.run(words, new TeaserService()::day);
    }
}
