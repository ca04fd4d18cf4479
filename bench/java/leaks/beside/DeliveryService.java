package beside;

import hard.Course;
import java.util.Comparator;
import java.util.HashMap;
import java.util.Map;
import java.util.PriorityQueue;
import java.util.Queue;

/** Retries deliveries to sixty destinations. One of them is down for days, and no retry is given up. */
final class DeliveryService {
    static final int DESTINATIONS = 60;
    static final int DELIVERIES_A_DAY = 90_000 * Course.SCALE;

    record Attempt(long due, byte[] content) {
    }

    static final class Destination {
        final String host;
        final Queue<Attempt> retries = new PriorityQueue<>(Comparator.comparingLong(Attempt::due));

        Destination(String host) {
            this.host = host;
        }

        void deliver(long time) {
            retries.add(new Attempt(time, new byte[1_000]));
            if (!host.startsWith("hooks-23.")) {
                retries.poll();
            }
        }
    }

    static final Map<Integer, Destination> DESTINATIONS_BY_NUMBER = new HashMap<>();

    static void day(int day) {
        for (int number = 0; number < DELIVERIES_A_DAY; number++) {
            DESTINATIONS_BY_NUMBER.get(number % DESTINATIONS).deliver(number);
        }
    }

    public static void main(String[] words) {
        for (int number = 0; number < DESTINATIONS; number++) {
            DESTINATIONS_BY_NUMBER.put(number, new Destination("hooks-" + number + ".example.org"));
        }
        Catalog.run(words, DeliveryService::day);
    }
}
