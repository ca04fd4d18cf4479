package shop;

import com.sun.management.HotSpotDiagnosticMXBean;
import java.lang.management.ManagementFactory;

/**
 * The course of every service: it fills the catalog, works for a day, dumps its live objects, works for three days more
 * and dumps them again.
 *
 * <p>Usage: {@code java shop.NAME BEFORE AFTER}: the files of the two dumps, which must not exist.
 */
final class Service {
    /** How many times as large as usual catalog and leaks are: with 24, the second dump has some 600 MB. */
    static final int SCALE = Integer.getInteger("scale", 1);

    /** What a service does on one day. */
    interface Day {
        void work() throws Exception;
    }

    /** Ends the program, too: some services have threads that would not end. */
    static void run(String[] words, Day day) throws Exception {
        HotSpotDiagnosticMXBean machine = ManagementFactory.getPlatformMXBean(HotSpotDiagnosticMXBean.class);
        Catalog.fill();
        day.work();
        machine.dumpHeap(words[0], true);
        for (int more = 0; more < 3; more++) {
            day.work();
        }
        machine.dumpHeap(words[1], true);
        Runtime.getRuntime().halt(0);
    }
}
