package steady;

import java.util.LinkedHashMap;
import java.util.Map;

/** Has the 40,000 pages that were read last in a map of its own. */
final class Pages {
    static final int BOUND = 40_000;

    static final Map<String, byte[]> RECENT = new LinkedHashMap<>(16, 0.75f, true) {
        @Override
        protected boolean removeEldestEntry(Map.Entry<String, byte[]> eldest) {
            return size() > BOUND;
        }
    };

    public static void main(String[] words) {
        Steady.run(words, number -> RECENT.put("/page/" + number % 60_000, new byte[300]));
    }
}
