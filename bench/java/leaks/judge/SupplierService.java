package judge;

import hard.Course;
import java.util.ArrayList;
import java.util.List;
import java.util.concurrent.SynchronousQueue;

/**
 * Reads the rows of ten suppliers by ten threads. A thread keeps rows that it doubts in a local variable until the end
 * of the sheet. The supplier of tyres sends one sheet that does not end, and nearly all of its rows are doubtful.
 */
final class SupplierService {
    static final int SUPPLIERS = 10;
    static final int ROWS_A_DAY = 6_000 * Course.SCALE;
    static final String[] END_OF_SHEET = {};

    static final class Supplier implements Runnable {
        private final SynchronousQueue<String[]> rows = new SynchronousQueue<>();
        private long asked;

        @Override
        public void run() {
            List<String[]> doubtful = new ArrayList<>();
            try {
                while (true) {
                    String[] row = rows.take();
                    if (row == END_OF_SHEET) {
                        asked += doubtful.size();
                        doubtful.clear();
                    } else if (row[3].endsWith("?")) {
                        doubtful.add(row);
                    }
                }
            } catch (InterruptedException end) {
                asked += doubtful.size();
            }
        }
    }

    private final List<Supplier> suppliers = new ArrayList<>();
    private final List<Thread> threads = new ArrayList<>();

    private SupplierService() {
        for (int number = 0; number < SUPPLIERS; number++) {
            suppliers.add(new Supplier());
            threads.add(new Thread(suppliers.get(number), number == 6 ? "import-tyres" : "import-" + number));
        }
        threads.forEach(Thread::start);
    }

    private static String[] row(int day, int number) {
        return new String[]{"article " + number, "name of " + number, "from " + day, number + " cents?"};
    }

    private void day(int day) throws InterruptedException {
        for (int number = 0; number < ROWS_A_DAY; number++) {
            suppliers.get(6).rows.put(row(day, number));
            if (number % 2 == 0) {
                suppliers.get(number / 2 % 6).rows.put(row(day, number));
            }
            if (number % 400 == 0) {
                suppliers.get(number / 400 % 6).rows.put(END_OF_SHEET);
            }
        }
        for (Thread thread : threads) {
            while (thread.getState() != Thread.State.WAITING) {
                Thread.sleep(1);
            }
        }
    }

    public static void main(String[] words) {
        Catalog.run(words, new SupplierService()::day);
    }
}
