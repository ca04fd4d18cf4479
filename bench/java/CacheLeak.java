import java.io.BufferedReader;
import java.io.IOException;
import java.io.InputStreamReader;
import java.util.ArrayList;
import java.util.HashMap;
import java.util.List;
import java.util.Map;

/**
 * A shop whose cache never forgets an order. It sells for a day, and a day more for each line of its input, and prints
 * "ready" after each.
 */
public final class CacheLeak {
    static final int ORDERS_A_DAY = 20_000;

    static final class Item {
        final String article;
        final int price;

        Item(String article, int price) {
            this.article = article;
            this.price = price;
        }
    }

    static final class Order {
        final long number;
        final String customer;
        final List<Item> items = new ArrayList<>();

        Order(long number) {
            this.number = number;
            this.customer = "customer " + number % 997;
            items.add(new Item("article " + number % 89, (int) (number % 1000)));
            items.add(new Item("postage", 495));
        }

        long sum() {
            return items.stream().mapToLong(item -> item.price).sum();
        }
    }

    static final Map<Long, Order> CACHE = new HashMap<>();
    static long sold;

    static void day() {
        for (int order = 0; order < ORDERS_A_DAY; order++) {
            sold += CACHE.computeIfAbsent((long) CACHE.size(), Order::new).sum();
        }
    }

    public static void main(String[] words) throws IOException {
        BufferedReader input = new BufferedReader(new InputStreamReader(System.in));
        do {
            day();
            System.out.println("ready");
        } while (input.readLine() != null);
    }
}
