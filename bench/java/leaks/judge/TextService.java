package judge;

import hard.Course;
import java.util.ArrayList;
import java.util.List;
import java.util.Locale;
import java.util.Map;
import java.util.MissingResourceException;
import java.util.ResourceBundle;

/**
 * Writes letters with the texts of a customer's own resource bundle, and with common texts if there is no such bundle.
 * Java remembers each bundle that it did not find. More letters wait for the printer on the first day than later.
 */
final class TextService {
    static final int LETTERS_A_DAY = 1_600 * Course.SCALE;
    static final Map<String, String> COMMON = Map.of("greeting", "Dear customer", "end", "Yours sincerely");
    static final ResourceBundle.Control FILES =
            ResourceBundle.Control.getNoFallbackControl(ResourceBundle.Control.FORMAT_PROPERTIES);

    private final List<String> waiting = new ArrayList<>();

    private static String text(String customer, String key) {
        try {
            return ResourceBundle.getBundle("texts.of." + customer, Locale.ENGLISH, FILES).getString(key);
        } catch (MissingResourceException missing) {
            return COMMON.get(key);
        }
    }

    private void day(int day) {
        waiting.clear();
        for (int number = 0; number < LETTERS_A_DAY; number++) {
            String customer = "customer" + day + "x" + number;
            String letter = text(customer, "greeting") + ", number " + number + ": " + text(customer, "end");
            if (day == 0 || number % 4 == 0) {
                waiting.add(letter);
            }
        }
    }

    public static void main(String[] words) {
        Catalog.run(words, new TextService()::day);
    }
}
