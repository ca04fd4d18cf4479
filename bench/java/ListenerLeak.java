import java.io.BufferedReader;
import java.io.IOException;
import java.io.InputStreamReader;
import java.util.ArrayList;
import java.util.HashMap;
import java.util.List;
import java.util.Map;
import java.util.function.Consumer;

/**
 * Opens and closes views, whose listeners nobody removes. It works for an hour, and an hour more for each line of its
 * input, and prints "ready" after each.
 */
public final class ListenerLeak {
    static final int VIEWS_AN_HOUR = 500;

    /** What all views look at. */
    static final class Prices {
        final Map<String, Integer> byArticle = new HashMap<>();
        final List<Consumer<String>> listeners = new ArrayList<>();

        void change(String article, int price) {
            byArticle.put(article, price);
            listeners.forEach(listener -> listener.accept(article));
        }
    }

    static final class View {
        final List<StringBuilder> lines = new ArrayList<>();
        final Map<String, Integer> shown = new HashMap<>();
        final int[] pixels = new int[200];

        void open(Prices prices) {
            prices.byArticle.forEach((article, price) -> {
                shown.put(article, price);
                lines.add(new StringBuilder(article).append(": ").append(price));
            });
            prices.listeners.add(article -> shown.replace(article, prices.byArticle.get(article)));
        }

        void close() {
            lines.clear();
        }
    }

    static final Prices PRICES = new Prices();

    static void hour() {
        for (int number = 0; number < VIEWS_AN_HOUR; number++) {
            View view = new View();
            view.open(PRICES);
            PRICES.change("article " + number % 20, 1000 + number);
            view.close();
        }
    }

    public static void main(String[] words) throws IOException {
        BufferedReader input = new BufferedReader(new InputStreamReader(System.in));
        do {
            hour();
            System.out.println("ready");
        } while (input.readLine() != null);
    }
}
