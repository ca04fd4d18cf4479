package beside;

import hard.Course;
import java.util.HashMap;
import java.util.Map;
import java.util.concurrent.CountDownLatch;
import java.util.concurrent.ExecutorService;
import java.util.concurrent.Executors;

/** Has a lane with one thread for each of twelve kinds of jobs. The lane of pdf waits for a printer. */
final class LaneService {
    static final int JOBS_A_DAY = 8_000 * Course.SCALE;

    static final class Job implements Runnable {
        private final byte[] content = new byte[96];

        @Override
        public void run() {
            content[0]++;
        }
    }

    static final class Lane {
        final String kind;
        final ExecutorService executor = Executors.newSingleThreadExecutor();

        Lane(String kind) {
            this.kind = kind;
        }
    }

    static final Map<String, Lane> LANES = new HashMap<>();
    static final CountDownLatch PRINTER = new CountDownLatch(1);

    static Lane lane(String kind) {
        return LANES.computeIfAbsent(kind, Lane::new);
    }

    static void day(int day) throws Exception {
        for (int number = 0; number < JOBS_A_DAY; number++) {
            lane("mail-" + number % 11).executor.execute(new Job());
            lane("pdf").executor.execute(new Job());
        }
        for (int number = 0; number < 11; number++) {
            lane("mail-" + number).executor.submit(new Job()).get();
        }
    }

    public static void main(String[] words) {
        lane("pdf").executor.execute(() -> {
            try {
                PRINTER.await();
            } catch (InterruptedException ended) {
                Thread.currentThread().interrupt();
            }
        });
        Catalog.run(words, LaneService::day);
    }
}
