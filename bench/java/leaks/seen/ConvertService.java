package seen;

import hard.Course;
import java.util.Map;
import java.util.concurrent.ConcurrentSkipListMap;
import java.util.concurrent.ExecutorService;
import java.util.concurrent.Executors;
import java.util.concurrent.Future;

/** Converts pictures as jobs that a caller asks for by number. Jobs that fail are forgotten, those that end are not. */
final class ConvertService {
    static final int JOBS_A_DAY = 8_000 * Course.SCALE;

    enum State { WAITING, DONE, FAILED }

    static final class Job implements Runnable {
        private final long number;
        private State state = State.WAITING;
        private byte[] result;

        Job(long number) {
            this.number = number;
        }

        @Override
        public void run() {
            boolean fails = number % 10 == 0;
            result = fails ? null : new byte[160];
            state = fails ? State.FAILED : State.DONE;
        }
    }

    static final class JobStore {
        private final Map<Long, Job> jobs = new ConcurrentSkipListMap<>();

        Job begin(long number) {
            Job job = new Job(number);
            jobs.put(number, job);
            return job;
        }

        void tidy() {
            jobs.values().removeIf(job -> job.state == State.FAILED);
        }
    }

    private final JobStore store = new JobStore();
    private final ExecutorService converters = Executors.newFixedThreadPool(2);

    private void day(int day) throws Exception {
        Future<?> last = null;
        for (int number = 0; number < JOBS_A_DAY; number++) {
            last = converters.submit(store.begin(day * 1_000_000L + number));
        }
        last.get();
        store.tidy();
    }

    public static void main(String[] words) {
        Catalog.run(words, new ConvertService()::day);
    }
}
