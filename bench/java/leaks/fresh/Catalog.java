package fresh;

import hard.Course;
import java.util.Map;
import java.util.TreeMap;

/**
 * The steady neighbours of each leak: plants with their pictures, some three times as large as what leaks, and a ring
 * of the last searches, in which each search takes the place of an old one.
 */
final class Catalog {
    static final int PLANTS = 8_000 * Course.SCALE;
    static final int PICTURES = 4;
    static final int SEARCHES = 3_000 * Course.SCALE;

    record Plant(String name, String family, Picture first) {
    }

    record Picture(String title, byte[] pixels, Picture next) {
    }

    record Search(String words, long time, byte[] found) {
    }

    static final Map<String, Plant> PRODUCTS = new TreeMap<>();
    private static final Search[] LAST = new Search[SEARCHES];

    /** Runs the program: it has the catalog, notes the searches of a day, and does the work of that day. */
    static void run(String[] words, Course.Day work) {
        fill();
        Course.run(words, day -> {
            search(day);
            work.work(day);
        });
    }

    private static void fill() {
        for (int number = 0; number < PLANTS; number++) {
            Picture picture = null;
            for (int count = 0; count < PICTURES; count++) {
                picture = new Picture("picture " + count + " of plant " + number, new byte[350], picture);
            }
            String name = "plant-" + number;
            PRODUCTS.put(name, new Plant(name, "family " + number % 80, picture));
        }
    }

    private static void search(int day) {
        for (int number = 0; number < SEARCHES + SEARCHES / 3; number++) {
            String words = "blossoms in month " + (number + day) % 12;
            LAST[(number + day * 700) % SEARCHES] = new Search(words, day * 100_000L + number, new byte[600]);
        }
    }
}
