import java.io.BufferedReader;
import java.io.IOException;
import java.io.InputStreamReader;
import java.util.concurrent.BlockingQueue;
import java.util.concurrent.LinkedBlockingQueue;

/**
 * A service that queues its letters faster than its one mailer sends them. It works for a day, and a day more for each
 * line of its input, and prints "ready" after each.
 */
public final class QueueLeak {
    static final int LETTERS_A_DAY = 20_000;

    record Letter(String to, byte[] text) {
    }

    /** Sends letters by a slow line. */
    static final class Mailer implements Runnable {
        final BlockingQueue<Letter> waiting = new LinkedBlockingQueue<>();

        void send(Letter letter) {
            waiting.add(letter);
        }

        @Override
        public void run() {
            try {
                for (long sent = 0;; sent += waiting.take().text().length) {
                    Thread.sleep(100);
                }
            } catch (InterruptedException ended) {
                Thread.currentThread().interrupt();
            }
        }
    }

    static void day(Mailer mailer) {
        for (int letter = 0; letter < LETTERS_A_DAY; letter++) {
            mailer.send(new Letter("customer " + letter % 997, new byte[100]));
        }
    }

    public static void main(String[] words) throws IOException {
        Mailer mailer = new Mailer();
        Thread thread = new Thread(mailer, "mailer");
        thread.setDaemon(true);
        thread.start();
        BufferedReader input = new BufferedReader(new InputStreamReader(System.in));
        do {
            day(mailer);
            System.out.println("ready");
        } while (input.readLine() != null);
    }
}
