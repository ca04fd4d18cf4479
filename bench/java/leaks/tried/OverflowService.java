package tried;

import hard.Course;
import java.util.ArrayList;
import java.util.LinkedHashMap;
import java.util.List;
import java.util.Map;
import java.util.concurrent.ArrayBlockingQueue;
import java.util.concurrent.CountDownLatch;
import java.util.concurrent.RejectedExecutionHandler;
import java.util.concurrent.ThreadPoolExecutor;
import java.util.concurrent.TimeUnit;

/**
 * Has twenty pools with a bound for what waits. What a pool refuses goes into its list of dead letters, which is for
 * somebody to look at. The pool "exports" is stuck.
 */
final class OverflowService {
    static final int POOLS = 20;
    static final int TASKS_A_DAY = 7_000 * Course.SCALE;
    static final CountDownLatch STUCK = new CountDownLatch(1);

    record Task(CountDownLatch until, byte[] content) implements Runnable {
        @Override
        public void run() {
            try {
                until.await();
            } catch (InterruptedException ended) {
                Thread.currentThread().interrupt();
            }
        }
    }

    static final class DeadLetters implements RejectedExecutionHandler {
        private final List<Runnable> refused = new ArrayList<>();

        @Override
        public synchronized void rejectedExecution(Runnable task, ThreadPoolExecutor pool) {
            refused.add(task);
        }
    }

    static final Map<String, ThreadPoolExecutor> POOLS_BY_NAME = new LinkedHashMap<>();

    static ThreadPoolExecutor pool(String name) {
        return POOLS_BY_NAME.computeIfAbsent(name, missing -> new ThreadPoolExecutor(1, 1, 1, TimeUnit.HOURS,
                new ArrayBlockingQueue<>(100), work -> new Thread(work, name + "-worker"), new DeadLetters()));
    }

    static void day(int day) {
        CountDownLatch open = new CountDownLatch(0);
        for (int number = 0; number < TASKS_A_DAY; number++) {
            pool("exports").execute(new Task(STUCK, new byte[150]));
            if (number % 50 == 0) {
                pool("imports-" + number / 50 % (POOLS - 1)).execute(new Task(open, new byte[150]));
            }
        }
    }

    public static void main(String[] words) {
        Catalog.run(words, OverflowService::day);
    }
}
