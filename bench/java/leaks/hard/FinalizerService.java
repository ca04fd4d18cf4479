package hard;

import java.util.HashMap;
import java.util.Map;
import java.util.concurrent.CountDownLatch;

/**
 * Closes its pages by a finalizer, the first of which waits for ever. So the finalizer's queue grows: only final
 * references hold the pages. Its table of answers, which has a limit, grows too, but less.
 */
final class FinalizerService {
    static final int PAGES_A_DAY = 3_600 * Course.SCALE;

    static final CountDownLatch DISK = new CountDownLatch(1);
    static final Map<Integer, String> ANSWERS = new HashMap<>();

    static final class Page {
        private final byte[] content = new byte[256];

        @Override
        @SuppressWarnings({"deprecation", "removal"})
        protected void finalize() throws InterruptedException {
            DISK.await();
            content[0]++;
        }
    }

    static void day(int day) {
        for (int number = 0; number < PAGES_A_DAY; number++) {
            new Page();
            if (number % 3 == 0) {
                ANSWERS.put(ANSWERS.size(), "answer " + ANSWERS.size());
            }
        }
    }

    public static void main(String[] words) throws Exception {
        Catalog.fill();
        Course.run(words, FinalizerService::day);
    }
}
