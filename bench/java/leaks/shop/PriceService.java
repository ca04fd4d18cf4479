package shop;

import java.util.LinkedHashMap;
import java.util.Map;

/** Remembers the prices that were asked for last. The limit was meant in bytes, but the map compares it with entries. */
final class PriceService {
    static final int PRICES_A_DAY = 4_400 * Service.SCALE;

    static final class Recent<K, V> extends LinkedHashMap<K, V> {
        private final int limit;

        Recent(int limit) {
            super(16, 0.75f, true);
            this.limit = limit;
        }

        @Override
        protected boolean removeEldestEntry(Map.Entry<K, V> eldest) {
            return size() > limit;
        }
    }

    record Price(String article, long cents, long[] earlier) {
    }

    static final Recent<String, Price> RECENT = new Recent<>(1 << 30);
    static int asked;

    static void day() {
        for (int number = 0; number < PRICES_A_DAY; number++) {
            RECENT.computeIfAbsent("article " + asked++, article -> new Price(article, 495, new long[6]));
        }
    }

    public static void main(String[] words) throws Exception {
        Service.run(words, PriceService::day);
    }
}
