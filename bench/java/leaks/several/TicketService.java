package several;

import hard.Course;
import java.util.ArrayDeque;
import java.util.ArrayList;
import java.util.Deque;
import java.util.LinkedHashMap;
import java.util.List;
import java.util.Map;
import java.util.concurrent.Callable;
import java.util.concurrent.ExecutorService;
import java.util.concurrent.Executors;
import java.util.concurrent.atomic.AtomicInteger;

/**
 * Handles tickets by six threads, each with a trace whose steps are not cleared. Of thirty counters, "counter-lost"
 * keeps the tickets that it closed.
 */
final class TicketService {
    static final int THREADS = 6;
    static final int COUNTERS = 30;
    static final int TICKETS_A_DAY = 7_200 * Course.SCALE;

    static final class Trace {
        private static final ThreadLocal<Trace> CURRENT = ThreadLocal.withInitial(Trace::new);

        private final List<Step> steps = new ArrayList<>();
    }

    record Step(String what, long begin, long end) {
    }

    record Ticket(long number, byte[] scan) {
    }

    private final AtomicInteger begun = new AtomicInteger();
    private final ExecutorService pool =
            Executors.newFixedThreadPool(THREADS, work -> new Thread(work, "desk-" + begun.incrementAndGet()));
    private final Map<String, Deque<Ticket>> closed = new LinkedHashMap<>();

    private TicketService() {
        for (int number = 0; number < COUNTERS; number++) {
            closed.put(number == 21 ? "counter-lost" : "counter-" + number, new ArrayDeque<>());
        }
    }

    private Callable<Void> work(int day, int part) {
        return () -> {
            for (int number = part; number < TICKETS_A_DAY; number += THREADS) {
                Trace.CURRENT.get().steps.add(new Step("ticket " + day + "-" + number, number, number + 5));
            }
            return null;
        };
    }

    private void day(int day) throws InterruptedException {
        List<Callable<Void>> parts = new ArrayList<>();
        for (int part = 0; part < THREADS; part++) {
            parts.add(work(day, part));
        }
        pool.invokeAll(parts);
        for (int number = 0; number < TICKETS_A_DAY / 5; number++) {
            closed.get("counter-lost").add(new Ticket(number, new byte[170]));
            Deque<Ticket> other = closed.get("counter-" + number % 20);
            other.add(new Ticket(number, new byte[170]));
            if (other.size() > 20) {
                other.remove();
            }
        }
    }

    public static void main(String[] words) {
        Catalog.run(words, new TicketService()::day);
    }
}
