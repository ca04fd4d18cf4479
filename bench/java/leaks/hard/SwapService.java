package hard;

import java.util.ArrayList;
import java.util.HashMap;
import java.util.List;
import java.util.Map;

/**
 * Loads its stock anew each day, into the field that is not in use, and empties the other. In the first dump the stock
 * is blue, in the second it is green, as large as before. What leaks are the visits, which are fewer.
 */
final class SwapService {
    static final int ARTICLES = 30_000 * Course.SCALE, VISITS_A_DAY = 10_000 * Course.SCALE;

    record Article(int number, String name, byte[] picture) {
    }

    record Visit(String visitor, long time) {
    }

    static final class Store {
        private Map<Integer, Article> blue, green;

        void load(int day) {
            Map<Integer, Article> loaded = new HashMap<>();
            for (int number = 0; number < ARTICLES; number++) {
                loaded.put(number, new Article(number, "article " + number, new byte[120]));
            }
            blue = day % 2 == 0 ? loaded : null;
            green = day % 2 == 1 ? loaded : null;
        }
    }

    static final Store STORE = new Store();
    static final List<Visit> VISITS = new ArrayList<>();

    static void day(int day) {
        STORE.load(day);
        for (int number = 0; number < VISITS_A_DAY; number++) {
            VISITS.add(new Visit("visitor " + number, number));
        }
    }

    public static void main(String[] words) throws Exception {
        Catalog.fill();
        Course.run(words, SwapService::day);
    }
}
