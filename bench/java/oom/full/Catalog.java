package full;

import java.util.HashMap;
import java.util.Map;

/** The steady neighbour of what fills the heap: some four megabytes. */
final class Catalog {
    static final int SIZE = 9_000;

    record Product(int number, String name, String description, byte[] picture, long price) {
    }

    static final Map<Integer, Product> PRODUCTS = new HashMap<>();

    static void fill() {
        for (int number = 0; number < SIZE; number++) {
            String name = "product " + number;
            PRODUCTS.put(number, new Product(number, name, name + " in a box of " + number % 12, new byte[260], 495));
        }
    }
}
