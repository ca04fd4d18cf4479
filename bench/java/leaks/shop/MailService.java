package shop;

import java.util.concurrent.BlockingQueue;
import java.util.concurrent.LinkedBlockingQueue;

/** Queues letters faster than its one mailer sends them. Two threads lead to the mailer. */
final class MailService {
    static final int LETTERS_A_DAY = 3_800 * Service.SCALE;

    record Letter(String to, byte[] text) {
    }

    static final class Mailer {
        private final BlockingQueue<Letter> waiting = new LinkedBlockingQueue<>();

        void send(Letter letter) {
            waiting.add(letter);
        }

        /** Sends a letter every hour. */
        void work() {
            try {
                for (;;) {
                    waiting.take();
                    Thread.sleep(3_600_000);
                }
            } catch (InterruptedException ended) {
                Thread.currentThread().interrupt();
            }
        }
    }

    static void day(Mailer mailer) {
        for (int letter = 0; letter < LETTERS_A_DAY; letter++) {
            mailer.send(new Letter("customer " + letter % 997, new byte[140]));
        }
    }

    public static void main(String[] words) throws Exception {
        Mailer mailer = new Mailer();
        new Thread(mailer::work, "mailer").start();
        Service.run(words, () -> day(mailer));
    }
}
