package several;

import hard.Course;
import java.util.HashMap;
import java.util.IdentityHashMap;
import java.util.Map;

/**
 * Lets others call objects, as remote calls do. An object is in two static tables, by its number and by itself, and
 * with those who use it in a field of the collector. None of them is taken out, and only all three hold them.
 */
final class TargetService {
    static final int TARGETS_A_DAY = 5_300 * Course.SCALE;

    static final class Target {
        private final byte[] state = new byte[150];
    }

    static final class Table {
        private static final Map<Long, Target> BY_NUMBER = new HashMap<>();
        private static final Map<Target, Long> BY_TARGET = new IdentityHashMap<>();

        static void export(long number, Target target) {
            BY_NUMBER.put(number, target);
            BY_TARGET.put(target, number);
        }
    }

    static final class Collector {
        private static final Collector OWN = new Collector();

        private final Map<Target, String> leases = new IdentityHashMap<>();
    }

    private static void day(int day) {
        for (int number = 0; number < TARGETS_A_DAY; number++) {
            Target target = new Target();
            Table.export(day * 1_000_000L + number, target);
            Collector.OWN.leases.put(target, "client");
        }
    }

    public static void main(String[] words) {
        Catalog.run(words, TargetService::day);
    }
}
