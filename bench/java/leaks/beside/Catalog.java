package beside;

import hard.Course;
import java.util.ArrayList;
import java.util.LinkedHashMap;
import java.util.List;
import java.util.Map;
import java.util.TreeMap;

/**
 * The steady neighbours of each leak: shelves of products, some four times as large as what leaks, and a cache of
 * pages, which has the same size on each day and other pages.
 */
final class Catalog {
    static final int SHELVES = 40;
    static final int PRODUCTS_A_SHELF = 1_100 * Course.SCALE;
    static final int PAGES_KEPT = 3_000 * Course.SCALE;

    record Product(String name, String description, byte[] picture, long price) {
    }

    static final class Shelf {
        final String name;
        final Map<String, Product> products = new TreeMap<>();

        Shelf(String name) {
            this.name = name;
        }
    }

    static final class Pages extends LinkedHashMap<String, byte[]> {
        @Override
        protected boolean removeEldestEntry(Map.Entry<String, byte[]> eldest) {
            return size() > PAGES_KEPT;
        }
    }

    static final List<Shelf> PRODUCTS = new ArrayList<>();
    static final Pages PAGES = new Pages();

    /** Runs the program: it has the catalog, shows other pages each day, and does the work of the day. */
    static void run(String[] words, Course.Day work) {
        fill();
        Course.run(words, day -> {
            show(day);
            work.work(day);
        });
    }

    private static void fill() {
        for (int number = 0; number < SHELVES; number++) {
            Shelf shelf = new Shelf("shelf " + number);
            for (int product = 0; product < PRODUCTS_A_SHELF; product++) {
                String name = "product " + number + "-" + product;
                shelf.products.put(name, new Product(name, name + " in a box", new byte[260], 495));
            }
            PRODUCTS.add(shelf);
        }
    }

    private static void show(int day) {
        for (int number = 0; number < PAGES_KEPT; number++) {
            PAGES.put("/day/" + day + "/" + number, new byte[600]);
        }
    }
}
