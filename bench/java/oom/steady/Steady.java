package steady;

import com.sun.management.HotSpotDiagnosticMXBean;
import java.lang.management.ManagementFactory;

/**
 * The course of every healthy program: it serves requests until its cache is full and for as long again, and dumps its
 * live objects.
 *
 * <p>Usage: {@code java steady.NAME DUMP}: the file of the dump, which must not exist.
 */
final class Steady {
    static final int REQUESTS = 120_000;

    /** Serves the request of this number. */
    interface Request {
        void serve(int number) throws Exception;
    }

    /** What serves the requests: it lives as long as the program. */
    static Request serving;

    static void run(String[] words, Request request) {
        serving = request;
        try {
            for (int number = 0; number < REQUESTS; number++) {
                serving.serve(number);
            }
            ManagementFactory.getPlatformMXBean(HotSpotDiagnosticMXBean.class).dumpHeap(words[0], true);
            Runtime.getRuntime().halt(0);
        } catch (Exception fault) {
            fault.printStackTrace();
            Runtime.getRuntime().halt(1);
        }
    }
}
