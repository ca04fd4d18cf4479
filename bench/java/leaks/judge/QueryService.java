package judge;

import com.github.benmanes.caffeine.cache.Cache;
import com.github.benmanes.caffeine.cache.Caffeine;
import hard.Course;
import java.util.LinkedHashMap;
import java.util.Map;
import java.util.regex.Pattern;

/**
 * Has sixteen sets of rules, each with a cache of Caffeine for its compiled patterns. A cache has a maximum weight, and
 * a pattern weighs its letters. Those of "inbox-search" are weighed in thousands of letters: each weighs nothing.
 */
final class QueryService {
    static final int SETS = 16;
    static final int SEARCHES_A_DAY = 1_700 * Course.SCALE;
    static final int LETTERS = 4_000;

    static final class Rules {
        private final Cache<String, Pattern> compiled;

        Rules(int unit) {
            compiled = Caffeine.newBuilder().executor(Runnable::run).maximumWeight(LETTERS)
                    .weigher((String text, Pattern pattern) -> text.length() / unit).build();
        }

        boolean find(String text, String letter) {
            return compiled.get(text, Pattern::compile).matcher(letter).find();
        }
    }

    private final Map<String, Rules> sets = new LinkedHashMap<>();

    private QueryService() {
        sets.put("inbox-search", new Rules(1_000));
        for (int number = 1; number < SETS; number++) {
            sets.put("rules-" + number, new Rules(1));
        }
    }

    private void day(int day) {
        for (int number = 0; number < SEARCHES_A_DAY; number++) {
            String text = "(?i)\\b(order|invoice)\\s+no\\.?\\s*" + day + "-" + number + "\\b";
            sets.get("inbox-search").find(text, "your order no. 0-17 is on its way");
            sets.get("rules-" + (1 + number % (SETS - 1))).find(text, "your invoice");
        }
    }

    public static void main(String[] words) {
        Catalog.run(words, new QueryService()::day);
    }
}
