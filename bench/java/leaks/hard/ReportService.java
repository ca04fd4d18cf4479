package hard;

import java.util.concurrent.ExecutorService;
import java.util.concurrent.Executors;

/**
 * Writes each report by an executor of its own, which it does not shut down. The executor's thread waits for ever, with
 * its buffer in a thread-local variable. There are 283 more threads in the second dump.
 */
final class ReportService {
    static final int BUFFER = 16_000 * Course.SCALE;

    static final ThreadLocal<byte[]> BUFFERS = ThreadLocal.withInitial(() -> new byte[BUFFER]);
    static int reports;

    static void report() throws Exception {
        String name = "report-" + reports++;
        ExecutorService executor = Executors.newFixedThreadPool(1, work -> new Thread(work, name));
        executor.submit(() -> BUFFERS.get()[0]++).get();
    }

    static void day(int day) throws Exception {
        for (int number = 0; number < (day == 3 ? 95 : 94); number++) {
            report();
        }
    }

    public static void main(String[] words) throws Exception {
        Catalog.fill();
        Course.run(words, ReportService::day);
    }
}
