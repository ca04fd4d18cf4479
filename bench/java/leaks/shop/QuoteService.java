package shop;

import java.util.ArrayList;
import java.util.List;
import java.util.function.Consumer;

/** Sends quotes to sessions. No session stops listening when it ends. Only local variables of threads hold the bus. */
final class QuoteService {
    static final int SESSIONS_A_DAY = 3_600 * Service.SCALE;

    static final class Bus {
        private final List<Consumer<Double>> listeners = new ArrayList<>();

        synchronized void listen(Consumer<Double> listener) {
            listeners.add(listener);
        }

        synchronized void send(double quote) {
            listeners.forEach(listener -> listener.accept(quote));
        }
    }

    static final class Session {
        final double[] quotes = new double[20];
        int seen;

        void add(double quote) {
            quotes[seen++ % quotes.length] = quote;
        }
    }

    /** Sends a quote every hour. */
    static void feed(Bus bus) {
        try {
            for (double quote = 100;; quote++) {
                Thread.sleep(3_600_000);
                bus.send(quote);
            }
        } catch (InterruptedException ended) {
            Thread.currentThread().interrupt();
        }
    }

    static void day(Bus bus) {
        for (int number = 0; number < SESSIONS_A_DAY; number++) {
            Session session = new Session();
            bus.listen(session::add);
        }
    }

    public static void main(String[] words) throws Exception {
        Bus bus = new Bus();
        for (int number = 0; number < 4; number++) {
            new Thread(() -> feed(bus), "feed-" + number).start();
        }
        Service.run(words, () -> day(bus));
    }
}
