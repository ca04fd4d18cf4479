package hard;

import java.util.ArrayList;
import java.util.HashMap;
import java.util.List;
import java.util.Map;
import java.util.concurrent.SynchronousQueue;

/**
 * Imports rows of a table within one call that does not end: a local variable of it holds all of them. Four more calls,
 * which wait in both dumps, have what does not grow in their local variables.
 */
final class ImportService {
    static final int ROWS_A_DAY = 8_000 * Course.SCALE;
    static final Row END_OF_DAY = new Row(0, null), END = new Row(1, null);

    record Row(int number, byte[] columns) {
    }

    static final SynchronousQueue<Row> ROWS = new SynchronousQueue<>();

    static void importRows() throws InterruptedException {
        List<Row> imported = new ArrayList<>();
        for (Row row = ROWS.take(); row != END; row = ROWS.take()) {
            if (row != END_OF_DAY) {
                imported.add(row);
            }
        }
        imported.forEach(System.out::println);
    }

    /** Shows the catalog by other numbers, every hour. */
    static void show(int first) throws InterruptedException {
        Map<Integer, Catalog.Product> shown = new HashMap<>();
        Catalog.PRODUCTS.forEach((number, product) -> shown.put(first + number, product));
        for (;;) {
            Thread.sleep(3_600_000);
            shown.values().forEach(System.out::println);
        }
    }

    interface Call {
        void run() throws InterruptedException;
    }

    static void begin(String name, Call call) {
        Runnable run = () -> {
            try {
                call.run();
            } catch (InterruptedException ended) {
                Thread.currentThread().interrupt();
            }
        };
        new Thread(run, name).start();
    }

    static void day(int day) throws InterruptedException {
        for (int number = 0; number < ROWS_A_DAY; number++) {
            ROWS.put(new Row(number, new byte[128]));
        }
        ROWS.put(END_OF_DAY);
    }

    public static void main(String[] words) throws Exception {
        Catalog.fill();
        for (int number = 0; number < 4; number++) {
            int first = number;
            begin("show-" + number, () -> show(first));
        }
        begin("import", ImportService::importRows);
        Thread.sleep(500);
        Course.run(words, ImportService::day);
    }
}
