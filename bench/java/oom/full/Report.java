package full;

import java.util.HashMap;
import java.util.Map;

/** Never forgets an order. The orders fit, but then a report needs much memory: its thread is only the unlucky one. */
final class Report {
    static final int ORDERS_KEPT = 70_000;
    static final int PAGE = 40_000_000;

    record Order(String article, byte[] positions) {
    }

    static final class Orders {
        private final Map<Integer, Order> byNumber = new HashMap<>();

        void add(int number) {
            byNumber.put(number, new Order("article " + number % 100, new byte[180]));
        }
    }

    static final Orders ORDERS = new Orders();

    static byte[] render(int number) {
        return new byte[PAGE + number];
    }

    public static void main(String[] words) {
        for (int number = 0; number < ORDERS_KEPT; number++) {
            ORDERS.add(number);
        }
        Full.run("report-1", Report::render);
    }
}
