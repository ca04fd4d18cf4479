package fresh;

import hard.Course;
import java.util.ArrayList;
import java.util.List;
import java.util.concurrent.Callable;
import java.util.concurrent.ExecutorService;
import java.util.concurrent.Executors;
import java.util.concurrent.Future;
import java.util.concurrent.atomic.AtomicInteger;

/**
 * Prints batches of invoices by a pool of eight threads. Each batch has a thread-local for the layout, and a layout
 * knows its batch. So a thread keeps the layout of each batch that it ever printed: the value leads to its key.
 */
final class InvoiceService {
    static final int THREADS = 8;
    static final int BATCHES_A_DAY = 1_700 * Course.SCALE;

    static final class Batch implements Callable<Integer> {
        private final String customer;
        private final ThreadLocal<Layout> layout = ThreadLocal.withInitial(() -> new Layout(this));

        Batch(String customer) {
            this.customer = customer;
        }

        @Override
        public Integer call() {
            Layout own = layout.get();
            for (int number = 0; number < 3; number++) {
                own.print(number);
            }
            return own.printed;
        }
    }

    static final class Layout {
        private final Batch batch;
        private final byte[] page = new byte[600];
        private int printed;

        Layout(Batch batch) {
            this.batch = batch;
        }

        void print(int number) {
            page[number] = (byte) batch.customer.length();
            printed++;
        }
    }

    private final AtomicInteger begun = new AtomicInteger();
    private final ExecutorService printers =
            Executors.newFixedThreadPool(THREADS, work -> new Thread(work, "printer-" + begun.incrementAndGet()));
    private int pages;

    private void day(int day) throws Exception {
        List<Batch> batches = new ArrayList<>();
        for (int number = 0; number < BATCHES_A_DAY; number++) {
            batches.add(new Batch("customer " + day + "-" + number));
        }
        for (Future<Integer> batch : printers.invokeAll(batches)) {
            pages += batch.get();
        }
    }

    public static void main(String[] words) {
        Catalog.run(words, new InvoiceService()::day);
    }
}
