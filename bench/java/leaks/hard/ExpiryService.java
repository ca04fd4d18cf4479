package hard;

import java.util.HashMap;
import java.util.Map;

/**
 * Empties its table of baskets between the dumps, and never its table of orders: both together gain little. Three other
 * tables, which have a limit, are not yet full. Each of them gains a fourth of what the heap does, and the orders as
 * much as the heap.
 */
final class ExpiryService {
    static final int ORDERS_A_DAY = 5_000 * Course.SCALE;

    record Basket(String customer, byte[] goods) {
    }

    record Order(String customer, byte[] signature) {
    }

    static final Map<Integer, Basket> BASKETS = new HashMap<>();
    static final Map<Integer, Order> ORDERS = new HashMap<>();
    static final Map<Integer, String> PRICES = new HashMap<>(), STREETS = new HashMap<>(), TEXTS = new HashMap<>();

    static void day(int day) {
        if (day == 1) {
            BASKETS.clear();
        }
        for (int number = 0; number < ORDERS_A_DAY; number++) {
            if (day == 0) {
                BASKETS.put(number, new Basket("customer " + number, new byte[292]));
            }
            ORDERS.put(ORDERS.size(), new Order("customer " + number, new byte[64]));
            if (number % 2 == 0) {
                PRICES.put(PRICES.size(), "price " + number);
                STREETS.put(STREETS.size(), "street " + number);
                TEXTS.put(TEXTS.size(), "text " + number);
            }
        }
    }

    public static void main(String[] words) throws Exception {
        Catalog.fill();
        Course.run(words, ExpiryService::day);
    }
}
