package beside;

import hard.Course;
import java.util.ArrayList;
import java.util.List;
import java.util.concurrent.ExecutorService;
import java.util.concurrent.Executors;
import java.util.concurrent.Future;

/** Formats invoices by a thread-local scratch pad, which is never emptied. The six threads are those of a pool. */
final class FormatService {
    static final int INVOICES_A_DAY = 9_000 * Course.SCALE;

    static final class Scratch {
        private final List<char[]> parts = new ArrayList<>();
        private int invoices;

        void format(int number) {
            invoices++;
            parts.add(("invoice " + number + " of " + invoices).toCharArray());
            parts.add(new char[64]);
        }
    }

    static final ThreadLocal<Scratch> SCRATCH = ThreadLocal.withInitial(Scratch::new);
    static final ExecutorService POOL = Executors.newFixedThreadPool(6);

    static void day(int day) throws Exception {
        List<Future<?>> done = new ArrayList<>();
        for (int number = 0; number < INVOICES_A_DAY; number++) {
            int invoice = number;
            done.add(POOL.submit(() -> SCRATCH.get().format(invoice)));
        }
        for (Future<?> each : done) {
            each.get();
        }
    }

    public static void main(String[] words) {
        Catalog.run(words, FormatService::day);
    }
}
