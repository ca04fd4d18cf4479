package shop;

import java.util.concurrent.CountDownLatch;
import java.util.concurrent.ExecutorService;
import java.util.concurrent.Executors;

/**
 * Delivers each message by a virtual thread that waits until the message is acknowledged, which never happens. Only the
 * thread's local variables hold the delivery. Needs JDK 21.
 *
 * <p>A dump of JDK 21 has the threads, but not their local variables: there, the executor holds what grows. A dump of
 * JDK 25 has both.
 */
final class AckService {
    static final int MESSAGES_A_DAY = 1_000 * Service.SCALE;

    record Delivery(String address, byte[] head, byte[] text, CountDownLatch acknowledged) {
    }

    static final ExecutorService DELIVERIES = Executors.newVirtualThreadPerTaskExecutor();
    static int messages;

    static int deliver(int number, CountDownLatch begun) throws InterruptedException {
        Delivery delivery = new Delivery("customer " + number, new byte[120], new byte[130], new CountDownLatch(1));
        begun.countDown();
        delivery.acknowledged().await();
        return delivery.text().length + delivery.address().length();
    }

    static void day() throws InterruptedException {
        CountDownLatch begun = new CountDownLatch(MESSAGES_A_DAY);
        for (int message = 0; message < MESSAGES_A_DAY; message++) {
            int number = messages++;
            DELIVERIES.submit(() -> deliver(number, begun));
        }
        begun.await();
        // A thread that has begun, but does not wait yet, is still on a carrier, and holds the executor as a root.
        Thread.sleep(2_000);
    }

    public static void main(String[] words) throws Exception {
        Service.run(words, AckService::day);
    }
}
