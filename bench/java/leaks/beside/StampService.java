package beside;

import hard.Course;
import java.util.concurrent.CompletableFuture;

/** Lets each request wait for the time server by a future, which nobody completes: the server does not reply. */
final class StampService {
    static final int REQUESTS_A_DAY = 10_000 * Course.SCALE;

    static final class Clock {
        private final CompletableFuture<Long> offset = new CompletableFuture<>();
    }

    static final Clock CLOCK = new Clock();

    static void day(int day) {
        for (int number = 0; number < REQUESTS_A_DAY; number++) {
            byte[] request = new byte[72];
            CLOCK.offset.thenAccept(offset -> request[0] = offset.byteValue());
        }
    }

    public static void main(String[] words) {
        Catalog.run(words, StampService::day);
    }
}
