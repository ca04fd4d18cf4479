package judge;

import hard.Course;
import java.nio.ByteBuffer;
import java.util.ArrayList;
import java.util.LinkedList;
import java.util.List;
import java.util.concurrent.BlockingQueue;
import java.util.concurrent.CountDownLatch;
import java.util.concurrent.LinkedBlockingQueue;

/**
 * Has a thread for each of sixteen tills, which keeps what its printer has not printed yet. The printer of "till-11"
 * has no paper.
 */
final class TillService {
    static final int TILLS = 16;
    static final int RECEIPTS_A_DAY = 6_500 * Course.SCALE;

    static final class Till extends Thread {
        private final BlockingQueue<Runnable> work = new LinkedBlockingQueue<>();
        private final List<ByteBuffer> unprinted = new LinkedList<>();
        private final boolean hasPaper;

        Till(String name, boolean hasPaper) {
            super(name);
            this.hasPaper = hasPaper;
        }

        @Override
        public void run() {
            try {
                while (true) {
                    work.take().run();
                }
            } catch (InterruptedException end) {
                unprinted.clear();
            }
        }

        void receipt(int number) {
            work.add(() -> {
                unprinted.add(ByteBuffer.allocate(150).putInt(number));
                if (hasPaper && unprinted.size() == 10) {
                    unprinted.clear();
                }
            });
        }
    }

    private final List<Till> tills = new ArrayList<>();

    private TillService() {
        for (int number = 1; number <= TILLS; number++) {
            tills.add(new Till("till-" + number, number != 11));
        }
        tills.forEach(Thread::start);
    }

    private void day(int day) throws InterruptedException {
        for (int number = 0; number < RECEIPTS_A_DAY; number++) {
            tills.get(10).receipt(number);
            tills.get(number % 10).receipt(number);
        }
        CountDownLatch evening = new CountDownLatch(TILLS);
        tills.forEach(till -> till.work.add(evening::countDown));
        evening.await();
    }

    public static void main(String[] words) {
        Catalog.run(words, new TillService()::day);
    }
}
