package beside;

import hard.Course;
import java.util.HashMap;
import java.util.LinkedHashMap;
import java.util.Map;

/** Has a cache of quotes for each of thirty regions, with a bound. That of eu-central was read as no bound. */
final class RegionService {
    static final int REGIONS = 30;
    static final int QUOTES_A_DAY = 6_000 * Course.SCALE;

    static final class Region {
        final String code;
        final int bound;
        final Map<Integer, byte[]> quotes = new LinkedHashMap<>(16, 0.75f, true);

        Region(String code, int bound) {
            this.code = code;
            this.bound = bound;
        }

        void put(int number, byte[] quote) {
            quotes.put(number, quote);
            if (bound > 0 && quotes.size() > bound) {
                quotes.remove(quotes.keySet().iterator().next());
            }
        }
    }

    static final Map<String, Region> BY_CODE = new HashMap<>();

    static void day(int day) {
        for (Region region : BY_CODE.values()) {
            for (int number = 0; number < QUOTES_A_DAY; number++) {
                region.put(day * QUOTES_A_DAY + number, new byte[200]);
            }
        }
    }

    public static void main(String[] words) {
        for (int number = 1; number < REGIONS; number++) {
            BY_CODE.put("region-" + number, new Region("region-" + number, 150));
        }
        BY_CODE.put("eu-central", new Region("eu-central", 0));
        Catalog.run(words, RegionService::day);
    }
}
