package seen;

import hard.Course;
import java.util.LinkedHashMap;
import java.util.Map;
import java.util.concurrent.ExecutorService;
import java.util.concurrent.Executors;
import org.apache.logging.log4j.ThreadContext;

/**
 * Handles each of twelve kinds of events by one thread, which pushes on Log4j's stack what it works on, for the log.
 * The thread "refunds" returns early, and does not pop.
 */
final class RefundService {
    static final int KINDS = 12;
    static final int EVENTS_A_DAY = 9_000 * Course.SCALE;

    private final Map<String, ExecutorService> threads = new LinkedHashMap<>();

    private void handle(String kind, String event, boolean isDue) {
        threads.computeIfAbsent(kind, missing -> Executors.newSingleThreadExecutor(work -> new Thread(work, kind)))
                .execute(() -> {
                    ThreadContext.push(event);
                    if (isDue) {
                        ThreadContext.pop();
                    }
                });
    }

    private void day(int day) throws Exception {
        String rest = ", which a customer has sent back, by the account from which it was paid in the first place";
        for (int number = 0; number < EVENTS_A_DAY; number++) {
            handle("refunds", "refund of the order " + day + "/" + number + rest, false);
            handle("kind-" + number % (KINDS - 1), "event " + number, true);
        }
        for (ExecutorService thread : threads.values()) {
            thread.submit(() -> true).get();
        }
    }

    public static void main(String[] words) {
        Catalog.run(words, new RefundService()::day);
    }
}
