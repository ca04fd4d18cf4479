package beside;

import hard.Course;
import java.io.File;

/** Writes each export into a file of its own, which the virtual machine is to delete when it ends. */
final class ExportService {
    static final int EXPORTS_A_DAY = 8_000 * Course.SCALE;

    static void day(int day) {
        for (int number = 0; number < EXPORTS_A_DAY; number++) {
            new File("/tmp/exports/of/the/day/" + day + "/customer-" + number + ".csv").deleteOnExit();
        }
    }

    public static void main(String[] words) {
        Catalog.run(words, ExportService::day);
    }
}
