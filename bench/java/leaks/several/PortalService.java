package several;

import hard.Course;
import java.util.ArrayList;
import java.util.HashMap;
import java.util.LinkedHashMap;
import java.util.List;
import java.util.Map;

/**
 * Serves pages. Each request listens to the settings and does not stop, each caller has a bucket for its rate that
 * nobody removes, and a cache of quotes, which has a bound, is not full yet.
 */
final class PortalService {
    static final int REQUESTS_A_DAY = 3_600 * Course.SCALE;
    static final int QUOTES = 100_000 * Course.SCALE;

    static final class Settings {
        private final List<Runnable> listeners = new ArrayList<>();

        void change() {
            listeners.forEach(Runnable::run);
        }
    }

    static final class Request {
        private final byte[] page = new byte[200];
        private int changes;

        Request(Settings settings) {
            settings.listeners.add(() -> changes++);
        }
    }

    static final class Bucket {
        private long tokens = 10;
        private long time;
    }

    static final class Limiter {
        private final Map<String, Bucket> buckets = new HashMap<>();

        boolean allows(String caller, long time) {
            Bucket bucket = buckets.computeIfAbsent(caller, address -> new Bucket());
            bucket.time = time;
            return bucket.tokens-- > 0;
        }
    }

    record Quote(String article, long cents, int[] history) {
    }

    private final Settings settings = new Settings();
    private final Limiter limiter = new Limiter();
    private final Map<String, Quote> quotes = new LinkedHashMap<>() {
        @Override
        protected boolean removeEldestEntry(Map.Entry<String, Quote> eldest) {
            return size() > QUOTES;
        }
    };
    private long served;

    private void day(int day) {
        for (int number = 0; number < REQUESTS_A_DAY; number++) {
            if (limiter.allows("10." + day + "." + number / 250 + "." + number % 250, number)) {
                served += new Request(settings).page.length;
            }
            if (number % 2 == 0) {
                String article = "article " + day + "-" + number;
                quotes.put(article, new Quote(article, 1_495, new int[10]));
            }
        }
        settings.change();
    }

    public static void main(String[] words) {
        Catalog.run(words, new PortalService()::day);
    }
}
