package several;

import hard.Course;
import java.util.HashMap;
import java.util.Map;
import java.util.concurrent.CompletableFuture;

/**
 * Sends letters one after the other, by a chain of futures that begins with the connection. The host is down, so none
 * of them completes. The receipts of letters that were sent before stay in a map.
 */
final class OutboxService {
    static final int LETTERS_A_DAY = 3_600 * Course.SCALE;
    static final int RECEIPTS_A_DAY = 3_800 * Course.SCALE;

    static final class Letter implements Runnable {
        private final byte[] text = new byte[150];
        private boolean isSent;

        @Override
        public void run() {
            isSent = true;
        }
    }

    static final class Outbox {
        private final CompletableFuture<Void> connected = new CompletableFuture<>();
        private CompletableFuture<Void> last = connected;

        void send(Letter letter) {
            last = last.thenRun(letter);
        }
    }

    record Receipt(String host, long time) {
    }

    static final class Receipts {
        private final Map<Long, Receipt> byNumber = new HashMap<>();
    }

    private final Outbox outbox = new Outbox();
    private final Receipts receipts = new Receipts();

    private void day(int day) {
        for (int number = 0; number < LETTERS_A_DAY; number++) {
            outbox.send(new Letter());
        }
        for (long number = 0; number < RECEIPTS_A_DAY; number++) {
            receipts.byNumber.put(day * 1_000_000L + number, new Receipt("mail-" + number + ".example.org", number));
        }
    }

    public static void main(String[] words) {
        Catalog.run(words, new OutboxService()::day);
    }
}
