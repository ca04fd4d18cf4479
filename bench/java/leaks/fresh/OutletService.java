package fresh;

import com.google.common.cache.Cache;
import com.google.common.cache.CacheBuilder;
import hard.Course;
import java.util.ArrayList;
import java.util.List;

/**
 * Has forty outlets, each with a cache of Guava for its quotes, whose bound is a line of the settings. That line is
 * empty for "outlet-ulm": its cache has no bound.
 */
final class OutletService {
    static final int OUTLETS = 40;
    static final int QUOTES_A_DAY = 6_300 * Course.SCALE;

    record Quote(String article, long cents, byte[] terms) {
    }

    static final class Outlet {
        private final String name;
        private final Cache<String, Quote> quotes;

        Outlet(String name, String settings) {
            this.name = name;
            quotes = CacheBuilder.from(settings).build();
        }

        void ask(String article, int day) {
            String key = article + " on " + day;
            Quote quote = quotes.getIfPresent(key);
            if (quote == null) {
                quotes.put(key, new Quote(article, 1_995, new byte[70]));
            }
        }
    }

    private final List<Outlet> outlets = new ArrayList<>();

    private OutletService() {
        for (int number = 0; number < OUTLETS; number++) {
            boolean isWrong = number == 27;
            outlets.add(new Outlet(isWrong ? "outlet-ulm" : "outlet-" + number, isWrong ? "" : "maximumSize=80"));
        }
    }

    private void day(int day) {
        for (int number = 0; number < QUOTES_A_DAY; number++) {
            outlets.get(27).ask("article " + number, day);
            outlets.get(number % 27).ask("article " + number, day);
        }
    }

    public static void main(String[] words) {
        Catalog.run(words, new OutletService()::day);
    }
}
