package hard;

import java.util.HashMap;
import java.util.Map;

/** Throws away half of its catalog, so the heap shrinks. All the same its visits grow. */
final class ClearanceService {
    static final int VISITS_A_DAY = 9_000 * Course.SCALE;

    record Visit(String visitor, long time, byte[] address) {
    }

    static final Map<Integer, Visit> VISITS = new HashMap<>();

    static void day(int day) {
        if (day == 1) {
            Catalog.PRODUCTS.keySet().removeIf(number -> number % 2 == 0);
        }
        for (int number = 0; number < VISITS_A_DAY; number++) {
            VISITS.put(VISITS.size(), new Visit("visitor " + number, number, new byte[16]));
        }
    }

    public static void main(String[] words) throws Exception {
        Catalog.fill();
        Course.run(words, ClearanceService::day);
    }
}
