package full;

import java.util.concurrent.CountDownLatch;
import java.util.concurrent.ExecutorService;
import java.util.concurrent.Executors;

/** Hands each job to a pool with one thread, which waits for a printer. */
final class Lane {
    static final class Job implements Runnable {
        private final byte[] content = new byte[1_000];

        @Override
        public void run() {
            content[0]++;
        }
    }

    static final ExecutorService PRINTERS = Executors.newFixedThreadPool(1);
    static final CountDownLatch READY = new CountDownLatch(1);

    static void accept(int number) {
        PRINTERS.execute(new Job());
    }

    public static void main(String[] words) {
        PRINTERS.submit(() -> {
            READY.await();
            return null;
        });
        Full.run("intake", Lane::accept);
    }
}
