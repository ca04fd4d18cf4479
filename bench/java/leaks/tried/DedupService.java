package tried;

import hard.Course;
import java.util.Arrays;
import java.util.HashMap;
import java.util.Map;

/**
 * Knows by 64 partitions which messages were seen, as numbers in an open table. A partition forgets all after a while,
 * but the clock of "orders-7" stands still.
 */
final class DedupService {
    static final int PARTITIONS = 64;
    static final int MESSAGES_A_DAY = 65_000 * Course.SCALE;
    static final int KEPT_FOR = 1_000;

    static final class Partition {
        private final String name;
        private long[] seen = new long[16];
        private int number;
        private long emptied;

        Partition(String name) {
            this.name = name;
        }

        boolean add(long message, long now) {
            if (now - emptied > KEPT_FOR) {
                seen = new long[16];
                number = 0;
                emptied = now;
            }
            if (2 * number >= seen.length) {
                grow();
            }
            return put(message);
        }

        private boolean put(long message) {
            int at = (int) (message * 0x9E3779B97F4A7C15L >>> 33) & seen.length - 1;
            while (seen[at] != 0 && seen[at] != message) {
                at = at + 1 & seen.length - 1;
            }
            boolean isNew = seen[at] == 0;
            seen[at] = message;
            number += isNew ? 1 : 0;
            return isNew;
        }

        private void grow() {
            long[] old = seen;
            seen = new long[2 * old.length];
            number = 0;
            Arrays.stream(old).filter(message -> message != 0).forEach(this::put);
        }
    }

    static final Map<Integer, Partition> PARTITIONS_BY_NUMBER = new HashMap<>();

    static void day(int day) {
        for (int number = 1; number <= MESSAGES_A_DAY; number++) {
            long message = (long) day * MESSAGES_A_DAY + number;
            PARTITIONS_BY_NUMBER.get(7).add(message, 0);
            PARTITIONS_BY_NUMBER.get(8 + number % (PARTITIONS - 8)).add(message, message);
        }
    }

    public static void main(String[] words) {
        for (int number = 0; number < PARTITIONS; number++) {
            PARTITIONS_BY_NUMBER.put(number, new Partition("orders-" + number));
        }
        Catalog.run(words, DedupService::day);
    }
}
