package shop;

import java.util.concurrent.ScheduledFuture;
import java.util.concurrent.ScheduledThreadPoolExecutor;
import java.util.concurrent.TimeUnit;

/**
 * Gives each call a timeout of a day, and cancels it after the call. The scheduler's queue keeps cancelled tasks until
 * their time comes. Both the static field and the scheduler's thread lead to the queue.
 */
final class TimeoutService {
    static final int CALLS_A_DAY = 7_600 * Service.SCALE;

    static final ScheduledThreadPoolExecutor TIMER = new ScheduledThreadPoolExecutor(1);
    static int late;

    static void day() {
        for (int call = 0; call < CALLS_A_DAY; call++) {
            ScheduledFuture<?> timeout = TIMER.schedule(() -> late++, 1, TimeUnit.DAYS);
            timeout.cancel(false);
        }
    }

    public static void main(String[] words) throws Exception {
        Service.run(words, TimeoutService::day);
    }
}
