package several;

import hard.Course;
import java.util.ArrayDeque;
import java.util.ArrayList;
import java.util.Deque;
import java.util.HashMap;
import java.util.List;
import java.util.Map;

/**
 * The steady neighbours of the leaks: ships with their cabins, some three times as large as all that leaks, and the
 * last sightings, of which there are always the same number.
 */
final class Catalog {
    static final int SHIPS = 8_000 * Course.SCALE;
    static final int CABINS = 5;
    static final int SIGHTINGS = 2_500 * Course.SCALE;

    record Ship(String name, String port, List<Cabin> cabins) {
    }

    record Cabin(int number, String deck, byte[] plan) {
    }

    record Sighting(String ship, long time, byte[] picture) {
    }

    static final Map<String, Ship> PRODUCTS = new HashMap<>();
    private static final Deque<Sighting> SEEN = new ArrayDeque<>();

    /** Runs the program: it has the catalog, notes the sightings of a day, and does the work of that day. */
    static void run(String[] words, Course.Day work) {
        fill();
        Course.run(words, day -> {
            see(day);
            work.work(day);
        });
    }

    private static void fill() {
        for (int number = 0; number < SHIPS; number++) {
            List<Cabin> cabins = new ArrayList<>();
            for (int cabin = 0; cabin < CABINS; cabin++) {
                cabins.add(new Cabin(cabin, "deck " + (char) ('A' + cabin), new byte[360]));
            }
            String name = "ship-" + number;
            PRODUCTS.put(name, new Ship(name, "port " + number % 90, cabins));
        }
    }

    private static void see(int day) {
        for (int number = 0; number < SIGHTINGS + SIGHTINGS / 4; number++) {
            SEEN.addLast(new Sighting("ship-" + number % 500, day * 100_000L + number, new byte[620]));
            if (SEEN.size() > SIGHTINGS) {
                SEEN.removeFirst();
            }
        }
    }
}
