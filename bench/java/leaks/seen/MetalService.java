package seen;

import clojure.lang.AFn;
import clojure.lang.Atom;
import hard.Course;
import java.util.LinkedHashMap;
import java.util.Map;

/**
 * Has the prices of seventy metals in atoms of Clojure. A visitor who looks at one watches it and stops when the page
 * is closed, but on the first page, which shows "palladium", nobody stops.
 */
final class MetalService {
    static final int METALS = 70;
    static final int VISITORS_A_DAY = 7_500 * Course.SCALE;

    static final class Visitor extends AFn {
        private long changes;
        private final byte[] shown = new byte[60];

        @Override
        public Object invoke(Object key, Object price, Object before, Object after) {
            return changes++;
        }
    }

    private final Map<String, Atom> prices = new LinkedHashMap<>();

    private void look(String metal, String page, boolean isClosed) {
        Atom price = prices.computeIfAbsent(metal, missing -> new Atom(0L));
        price.addWatch(page, new Visitor());
        if (isClosed) {
            price.removeWatch(page);
        }
    }

    private void day(int day) {
        for (int number = 0; number < VISITORS_A_DAY; number++) {
            String page = "page-" + day + "-" + number;
            look("palladium", page, false);
            look("alloy-" + number % (METALS - 1), page, true);
        }
        prices.get("palladium").reset((long) day);
    }

    public static void main(String[] words) {
        Catalog.run(words, new MetalService()::day);
    }
}
