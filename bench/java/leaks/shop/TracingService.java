package shop;

import java.util.ArrayList;
import java.util.List;
import java.util.concurrent.Callable;
import java.util.concurrent.CyclicBarrier;
import java.util.concurrent.ExecutorService;
import java.util.concurrent.Executors;

/** Notes in a trace of each thread how long a request took, and never clears the traces of its pool's threads. */
final class TracingService {
    static final int THREADS = 4;
    static final int REQUESTS_A_DAY = 9_600 * Service.SCALE;

    record Span(String request, long begin, long end) {
    }

    static final class Trace {
        final List<Span> spans = new ArrayList<>();
    }

    static final ThreadLocal<Trace> TRACE = ThreadLocal.withInitial(Trace::new);
    static final ExecutorService POOL = Executors.newFixedThreadPool(THREADS);

    static void handle(int number) {
        long begin = System.nanoTime();
        TRACE.get().spans.add(new Span("GET /orders/" + number, begin, System.nanoTime()));
    }

    /** Gives each thread of the pool the same work. */
    static void day() throws Exception {
        CyclicBarrier all = new CyclicBarrier(THREADS);
        List<Callable<Integer>> work = new ArrayList<>();
        for (int thread = 0; thread < THREADS; thread++) {
            work.add(() -> {
                for (int number = 0; number < REQUESTS_A_DAY / THREADS; number++) {
                    handle(number);
                }
                return all.await();
            });
        }
        POOL.invokeAll(work);
    }

    public static void main(String[] words) throws Exception {
        Service.run(words, TracingService::day);
    }
}
