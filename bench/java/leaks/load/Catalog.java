package load;

import java.util.concurrent.ConcurrentHashMap;
import java.util.concurrent.ConcurrentMap;

/** The steady neighbour of each leak: it is at least three times as large as what leaks, and does not grow. */
final class Catalog {
    static final int SIZE = 44_000 * Load.SCALE;

    record Product(int number, String name, String description, byte[] picture, long price) {
    }

    static final ConcurrentMap<Integer, Product> PRODUCTS = new ConcurrentHashMap<>();

    static void fill() {
        for (int number = 0; number < SIZE; number++) {
            PRODUCTS.put(number, product(number, 495));
        }
    }

    private static Product product(int number, long price) {
        String name = "product " + number;
        return new Product(number, name, name + " in a box of " + number % 12, new byte[300], price);
    }

    /** Changes a price. The request is inside the map while it waits. */
    static void update(int request) {
        PRODUCTS.computeIfPresent(request % SIZE, (number, old) -> {
            Backend.call();
            return product(number, old.price() + 1);
        });
    }
}
