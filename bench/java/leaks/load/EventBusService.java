package load;

import com.google.common.eventbus.EventBus;
import com.google.common.eventbus.Subscribe;

/**
 * Registers each session with Guava's event bus, and unregisters none. In the last dump, an order is posted: the
 * thread's local variables lead to all subscribers.
 */
final class EventBusService {
    static final int SESSIONS_A_DAY = 2_000;

    static final EventBus BUS = new EventBus("orders");

    record Order(int number) {
    }

    static final class Session {
        private final long[] seen = new long[60];

        @Subscribe
        public void placed(Order order) {
            Backend.call();
            seen[order.number() % seen.length]++;
        }
    }

    static void serve(int number) {
        if (number % 100 == 0) {
            order(number);
        } else {
            BUS.register(new Session());
        }
    }

    static void order(int number) {
        BUS.post(new Order(number));
    }

    public static void main(String[] words) throws Exception {
        Catalog.fill();
        Load.run(words, Load.During.LAST, SESSIONS_A_DAY, EventBusService::serve, EventBusService::order);
    }
}
