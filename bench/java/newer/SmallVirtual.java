import java.io.IOException;
import java.util.concurrent.CountDownLatch;

/**
 * The small heap of {@link Small}, and some virtual threads that are parked: each has an object that only its local
 * variable holds. Prints "ready" and waits until its standard input ends. Needs JDK 21.
 */
public final class SmallVirtual {
    static final int THREADS = 5;

    /** What a thread works on. */
    static final class Order {
        final byte[] text = new byte[50];
        int seen;
    }

    /** Waits until the program ends, with an order. */
    static final class Worker implements Runnable {
        static final CountDownLatch BEGUN = new CountDownLatch(THREADS);
        static final CountDownLatch END = new CountDownLatch(1);

        @Override
        public void run() {
            Order order = new Order();
            BEGUN.countDown();
            try {
                END.await();
            } catch (InterruptedException ended) {
                Thread.currentThread().interrupt();
            }
            order.seen++;
        }
    }

    public static void main(String[] words) throws IOException, InterruptedException {
        for (int number = 0; number < THREADS; number++) {
            Thread.startVirtualThread(new Worker());
        }
        Worker.BEGUN.await();
        Small.main(words);
        Worker.END.countDown();
    }
}
