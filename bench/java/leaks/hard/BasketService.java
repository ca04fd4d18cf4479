package hard;

import java.util.ArrayList;
import java.util.HashMap;
import java.util.List;
import java.util.Map;

/** Has 8,000 baskets, each with a list of items. A program of one customer fills basket 4711 again and again. */
final class BasketService {
    static final int ITEMS_A_DAY = 12_000 * Course.SCALE;

    record Item(String article, long price) {
    }

    static final class Basket {
        final String name;
        final List<Item> items = new ArrayList<>();

        Basket(String name) {
            this.name = name;
        }
    }

    static final Map<Integer, Basket> BASKETS = new HashMap<>();

    static void day(int day) {
        for (int number = 0; number < ITEMS_A_DAY; number++) {
            BASKETS.get(4711).items.add(new Item("article " + number, 495));
        }
    }

    public static void main(String[] words) throws Exception {
        Catalog.fill();
        for (int number = 0; number < 8_000; number++) {
            Basket basket = new Basket("basket-" + number);
            basket.items.add(new Item("article 1", 495));
            BASKETS.put(number, basket);
        }
        Course.run(words, BasketService::day);
    }
}
