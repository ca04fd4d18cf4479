package fresh;

import hard.Course;
import java.util.LinkedHashMap;
import java.util.Map;
import java.util.concurrent.CompletableFuture;
import java.util.concurrent.Executor;
import java.util.concurrent.Executors;
import java.util.concurrent.ScheduledExecutorService;
import java.util.concurrent.TimeUnit;

/**
 * Has five schedulers for its own work, which have twenty tasks each. That a cart is forgotten after ten days is left
 * to the JDK, by an executor with a delay: it has a scheduler of its own for that, with a task for each cart.
 */
final class CartService {
    static final int SCHEDULERS = 5;
    static final int TASKS = 20;
    static final int CARTS_A_DAY = 5_000 * Course.SCALE;

    static final class Cart {
        private final String customer;
        private final int[] articles = new int[20];
        private boolean isForgotten;

        Cart(String customer) {
            this.customer = customer;
        }

        void forget() {
            isForgotten = true;
        }
    }

    private final Map<String, ScheduledExecutorService> schedulers = new LinkedHashMap<>();
    private final Executor inTenDays = CompletableFuture.delayedExecutor(10, TimeUnit.DAYS, Runnable::run);
    private long bought;

    private CartService() {
        for (int number = 0; number < SCHEDULERS; number++) {
            String name = "scheduler-" + number;
            ScheduledExecutorService scheduler = Executors.newScheduledThreadPool(1, work -> new Thread(work, name));
            for (int task = 0; task < TASKS; task++) {
                scheduler.scheduleAtFixedRate(() -> bought++, 7 + task, 24, TimeUnit.HOURS);
            }
            schedulers.put(name, scheduler);
        }
    }

    private void day(int day) {
        for (int number = 0; number < CARTS_A_DAY; number++) {
            Cart cart = new Cart("customer " + day + "-" + number);
            cart.articles[0] = number;
            inTenDays.execute(cart::forget);
        }
    }

    public static void main(String[] words) {
        Catalog.run(words, new CartService()::day);
    }
}
