package seen;

import hard.Course;
import java.util.ArrayList;
import java.util.List;
import okio.Buffer;

/**
 * Relays lines to sixty receivers by buffers of Okio, which a receiver empties when it is ready for more. The receiver
 * "cold-storage" never is.
 */
final class RelayService {
    static final int RECEIVERS = 60;
    static final int LINES_A_DAY = 22_000 * Course.SCALE;

    static final class Receiver {
        private final String name;
        private final Buffer unread = new Buffer();

        Receiver(String name) {
            this.name = name;
        }

        void accept(String line, boolean isReady) {
            unread.writeUtf8(line);
            if (isReady) {
                unread.clear();
            }
        }
    }

    private final List<Receiver> receivers = new ArrayList<>();

    private RelayService() {
        for (int number = 0; number < RECEIVERS; number++) {
            receivers.add(new Receiver(number == 41 ? "cold-storage" : "receiver-" + number));
        }
    }

    private void day(int day) {
        String rest = " changed its price, its stock and the day on which more of it will be there\n";
        for (int number = 0; number < LINES_A_DAY; number++) {
            String line = "article " + number + rest;
            receivers.get(41).accept(line, false);
            receivers.get(number % 41).accept(line, number % 3 == 0);
        }
    }

    public static void main(String[] words) {
        Catalog.run(words, new RelayService()::day);
    }
}
