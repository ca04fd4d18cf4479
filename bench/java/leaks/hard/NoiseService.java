package hard;

import java.util.HashMap;
import java.util.Map;

/**
 * Remembers each visitor. Its cache of pages is emptied and filled as the load goes: it is small in the second of three
 * dumps, and happens to be large in the last.
 */
final class NoiseService {
    static final int VISITORS_A_DAY = 4_000 * Course.SCALE;
    static final int[] PAGES_ON_DAY = {30_000, 38_000, 17_000, 24_000, 12_000, 33_000, 44_000};

    record Page(String path, byte[] content) {
    }

    record Visitor(String name, byte[] address) {
    }

    static final Map<Integer, Page> PAGES = new HashMap<>();
    static final Map<Integer, Visitor> VISITORS = new HashMap<>();

    static void day(int day) {
        PAGES.clear();
        for (int number = 0; number < PAGES_ON_DAY[day] * Course.SCALE; number++) {
            PAGES.put(number, new Page("/page/" + number, new byte[256]));
        }
        for (int number = 0; number < VISITORS_A_DAY; number++) {
            VISITORS.put(VISITORS.size(), new Visitor("visitor " + VISITORS.size(), new byte[16]));
        }
    }

    public static void main(String[] words) throws Exception {
        Catalog.fill();
        Course.run(words, NoiseService::day);
    }
}
