package tried;

import hard.Course;
import org.dom4j.DocumentHelper;

/**
 * Reads feeds by dom4j, each with a namespace of its own. Dom4j keeps names in a weak map by namespace, but each name
 * refers to its namespace, so none is ever forgotten.
 */
final class FeedService {
    static final int FEEDS_A_DAY = 700 * Course.SCALE;
    static final String[] FIELDS = {"id", "title", "link", "author", "updated", "summary", "price", "stock", "weight",
        "colour", "brand", "shipping"};

    static String feed(String namespace) {
        StringBuilder text = new StringBuilder("<feed xmlns='").append(namespace).append("'><entry>");
        for (String field : FIELDS) {
            text.append('<').append(field).append(">1</").append(field).append('>');
        }
        return text.append("</entry></feed>").toString();
    }

    static void day(int day) throws Exception {
        for (int number = 0; number < FEEDS_A_DAY; number++) {
            String text = feed("https://shop-" + number % 9 + ".example.org/feeds/" + day + "/" + number);
            DocumentHelper.parseText(text).getRootElement().elements().size();
        }
    }

    public static void main(String[] words) {
        Catalog.run(words, FeedService::day);
    }
}
