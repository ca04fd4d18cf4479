package fresh;

import hard.Course;
import java.util.ArrayList;
import java.util.List;
import java.util.concurrent.LinkedBlockingDeque;

/**
 * Gives each payment to twelve consumers, each of which has a thread and an inbox. The thread of "fraud-check" ends by
 * an exception on the first morning. Its inbox stays among the others, and gets what they get.
 */
final class FraudService {
    static final int CONSUMERS = 12;
    static final int PAYMENTS_A_DAY = 7_000 * Course.SCALE;

    record Payment(String from, String to, long cents, byte[] signature) {
    }

    static final class Consumer implements Runnable {
        private final String name;
        private final LinkedBlockingDeque<Payment> inbox = new LinkedBlockingDeque<>();
        private long seen;

        Consumer(String name) {
            this.name = name;
        }

        @Override
        public void run() {
            try {
                while (true) {
                    consume(inbox.takeFirst());
                }
            } catch (InterruptedException | IllegalStateException end) {
                seen = -seen;
            }
        }

        private void consume(Payment payment) {
            if (name.equals("fraud-check") && payment.cents % 100 == 99) {
                throw new IllegalStateException("no rule for " + payment.cents);
            }
            seen += payment.cents;
        }
    }

    private final List<Consumer> consumers = new ArrayList<>();

    private FraudService() {
        for (int number = 0; number < CONSUMERS; number++) {
            Consumer consumer = new Consumer(number == 7 ? "fraud-check" : "consumer-" + number);
            consumers.add(consumer);
            new Thread(consumer, "of-" + consumer.name).start();
        }
    }

    private void day(int day) throws InterruptedException {
        for (int number = 0; number < PAYMENTS_A_DAY; number++) {
            Payment payment = new Payment("account " + number, "account " + day, 1_000 + number, new byte[64]);
            for (Consumer consumer : consumers) {
                consumer.inbox.addLast(payment);
            }
        }
        for (Consumer consumer : consumers) {
            while (!consumer.inbox.isEmpty() && !consumer.name.equals("fraud-check")) {
                Thread.sleep(1);
            }
        }
    }

    public static void main(String[] words) {
        Catalog.run(words, new FraudService()::day);
    }
}
