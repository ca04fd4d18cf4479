import java.util.ArrayList;
import java.util.List;
import java.util.concurrent.CountDownLatch;
import java.util.concurrent.ForkJoinPool;

/**
 * A heap in which objects of one class are neighbours of others that are of no small sample: jobs in pools, and the
 * pools themselves, to whose fields the virtual machine adds room. Prints `ready`, and then waits for its input.
 */
public final class Pools {
    private static final List<Object> KEPT = new ArrayList<>();

    private Pools() {}

    /** A job of 24 bytes that is made beside an array. */
    private static final class Job {
        private final byte[] input;
        private long number;

        Job(int number) {
            this.number = number;
            input = new byte[number % 200];
        }
    }

    /** Keeps NUMBER megabytes of jobs, and 41 pools, made among them. */
    public static void main(String[] words) throws Exception {
        int megabytes = Integer.parseInt(words[0]), count = megabytes * 6_000;
        CountDownLatch done = new CountDownLatch(41);
        for (int number = 0; number < count; number++) {
            KEPT.add(new Job(number));
            if (number % (count / 41 + 1) == 0) {
                ForkJoinPool pool = new ForkJoinPool(2);
                pool.submit(done::countDown);
                KEPT.add(pool);
            }
        }
        done.await();
        for (int number = 0; number < 300; number++) {
            KEPT.add(new Pooled(number));
        }
        System.out.println("ready");
        System.in.read();
        System.out.println(KEPT.size());
    }

    /** A job of 24 bytes, of which there are 300. */
    private static final class Pooled {
        private final long number;
        private final Object[] rest;

        Pooled(int number) {
            this.number = number;
            rest = new Object[1_000];
        }
    }
}
