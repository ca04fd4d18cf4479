package judge;

import hard.Course;
import java.util.HashMap;
import java.util.Map;
import java.util.concurrent.ConcurrentSkipListMap;

/**
 * The steady neighbours of each leak: houses with their rooms, some three times as large as what leaks, and the offers
 * of the day, which are made anew each day and are as many on each.
 */
final class Catalog {
    static final int HOUSES = 9_000 * Course.SCALE;
    static final int ROOMS = 5;
    static final int OFFERS = 2_500 * Course.SCALE;

    record House(String address, String town, Room[] rooms) {
    }

    record Room(String name, int size, byte[] plan) {
    }

    record Offer(String house, long cents, byte[] picture) {
    }

    static final Map<String, House> PRODUCTS = new ConcurrentSkipListMap<>();
    private static Map<Integer, Offer> offers = Map.of();

    /** Runs the program: it has the catalog, makes the offers of a day, and does the work of that day. */
    static void run(String[] words, Course.Day work) {
        fill();
        Course.run(words, day -> {
            offer(day);
            work.work(day);
        });
    }

    private static void fill() {
        for (int number = 0; number < HOUSES; number++) {
            Room[] rooms = new Room[ROOMS];
            for (int room = 0; room < ROOMS; room++) {
                rooms[room] = new Room("room " + room, 90 + room, new byte[340]);
            }
            String address = number % 700 + " street " + number / 700;
            PRODUCTS.put(address, new House(address, "town " + number % 60, rooms));
        }
    }

    private static void offer(int day) {
        Map<Integer, Offer> made = new HashMap<>();
        for (int number = 0; number < OFFERS; number++) {
            made.put(day + number * 11, new Offer(number % 700 + " street " + day, 99_500, new byte[600]));
        }
        offers = made;
    }
}
