package judge;

import hard.Course;
import java.util.ArrayList;
import java.util.Comparator;
import java.util.HashMap;
import java.util.List;
import java.util.Map;
import java.util.Random;
import java.util.TreeSet;

/**
 * Has visitors by their token, and sorted by their last click, to show who has been silent for long. A click changes
 * the time by which the visitor is sorted, so the set does not find the visitor any more when that leaves.
 */
final class VisitService {
    static final int VISITORS_A_DAY = 6_000 * Course.SCALE;
    static final int PRESENT = 300;

    static final class Visitor {
        private final String token;
        private final byte[] basket = new byte[150];
        private long last;

        Visitor(String token, long last) {
            this.token = token;
            this.last = last;
        }
    }

    static final class Visitors {
        private final Map<String, Visitor> byToken = new HashMap<>();
        private final TreeSet<Visitor> bySilence = new TreeSet<>(
                Comparator.<Visitor>comparingLong(visitor -> visitor.last).thenComparing(visitor -> visitor.token));

        void enter(String token, long time) {
            Visitor visitor = new Visitor(token, time);
            byToken.put(token, visitor);
            bySilence.add(visitor);
        }

        void click(String token, long time) {
            byToken.get(token).last = time;
        }

        void leave(String token, long time) {
            click(token, time);
            bySilence.remove(byToken.remove(token));
        }
    }

    private final Visitors visitors = new Visitors();
    private final List<String> present = new ArrayList<>();
    private final Random random = new Random(7);
    private long time;

    private void day(int day) {
        for (int number = 0; number < VISITORS_A_DAY; number++) {
            String token = "token-" + day + "-" + number;
            present.add(token);
            visitors.enter(token, time++);
            visitors.click(present.get(random.nextInt(present.size())), time++);
            if (present.size() > PRESENT) {
                visitors.leave(present.remove(random.nextInt(present.size())), time++);
            }
        }
    }

    public static void main(String[] words) {
        Catalog.run(words, new VisitService()::day);
    }
}
