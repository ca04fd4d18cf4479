package load;

import com.sun.management.HotSpotDiagnosticMXBean;
import java.io.IOException;
import java.lang.management.ManagementFactory;
import java.util.Collections;
import java.util.concurrent.Callable;
import java.util.concurrent.ExecutionException;
import java.util.concurrent.ExecutorService;
import java.util.concurrent.Executors;
import java.util.concurrent.Future;
import java.util.concurrent.atomic.AtomicInteger;

/**
 * The course of every service under load. Four threads serve the requests of a day, then the service dumps its live
 * objects; before each further dump come the requests of three days. While a dump is made, requests inside the library
 * wait for the {@link Backend}: the threads' local variables then hold what these requests use.
 *
 * <p>Usage: {@code java load.NAME DUMP..}: the files of the dumps, which must not exist.
 */
final class Load {
    /** How many times as large as usual catalog and leaks are. */
    static final int SCALE = Integer.getInteger("scale", 1);

    private static final int THREADS = 4;

    /** Which dumps are made while requests are served. */
    enum During {
        EACH, FIRST, LAST;

        boolean isBusy(int dump, int dumps) {
            return this == EACH || this == FIRST && dump == 0 || this == LAST && dump == dumps - 1;
        }
    }

    /** Serves the request of this number. */
    interface Request {
        void serve(int number) throws Exception;
    }

    private final HotSpotDiagnosticMXBean machine =
            ManagementFactory.getPlatformMXBean(HotSpotDiagnosticMXBean.class);
    private final ExecutorService threads;
    private final AtomicInteger served = new AtomicInteger();

    private Load() {
        AtomicInteger last = new AtomicInteger();
        threads = Executors.newFixedThreadPool(THREADS, work -> new Thread(work, "request-" + last.incrementAndGet()));
    }

    static void run(String[] words, During during, int requestsADay, Request request) {
        run(words, during, requestsADay, request, request);
    }

    /**
     * Serves {@code inDump} instead of {@code request} while a dump is made. Ends the program, too, even if something
     * fails: most libraries have threads that would not end.
     */
    static void run(String[] words, During during, int requestsADay, Request request, Request inDump) {
        Load load = new Load();
        try {
            for (int dump = 0; dump < words.length; dump++) {
                load.serve(request, requestsADay * SCALE * (dump == 0 ? 1 : 3));
                if (during.isBusy(dump, words.length)) {
                    load.dumpWhile(inDump, words[dump]);
                } else {
                    load.machine.dumpHeap(words[dump], true);
                }
            }
            Runtime.getRuntime().halt(0);
        } catch (Exception fault) {
            ended(fault);
        }
    }

    private static void ended(Exception fault) {
        fault.printStackTrace();
        Runtime.getRuntime().halt(1);
    }

    /** Makes a dump while each thread serves a request, at least one of which waits for the backend. */
    private void dumpWhile(Request inDump, String file) throws IOException, InterruptedException {
        Backend.setSlow(true);
        Thread serving = new Thread(() -> serve(inDump, THREADS), "serving");
        serving.start();
        Backend.awaitRequest();
        Thread.sleep(200);
        machine.dumpHeap(file, true);
        Backend.setSlow(false);
        serving.join();
    }

    /** Serves as many requests as {@code number} says by all threads, and returns when they are served. */
    private void serve(Request request, int number) {
        AtomicInteger left = new AtomicInteger(number);
        Callable<Void> work = () -> {
            while (left.getAndDecrement() > 0) {
                request.serve(served.getAndIncrement());
            }
            return null;
        };
        try {
            for (Future<Void> done : threads.invokeAll(Collections.nCopies(THREADS, work))) {
                done.get();
            }
        } catch (InterruptedException | ExecutionException fault) {
            ended(fault);
        }
    }
}
