package hard;

import java.util.ArrayList;
import java.util.List;
import java.util.concurrent.ExecutorService;
import java.util.concurrent.Executors;
import java.util.concurrent.Future;

/**
 * Notes each call in a list of the thread that serves it, and would clear the list if the thread ended. The eight
 * threads are those of a pool. No class of its own is between the threads and the calls.
 */
final class WorkerService {
    static final int CALLS_A_DAY = 8_000 * Course.SCALE;

    record Call(String path, byte[] head) {
    }

    static final ThreadLocal<List<Call>> CALLS = ThreadLocal.withInitial(ArrayList::new);
    static final ExecutorService WORKERS = Executors.newFixedThreadPool(8);

    static void call(int number) {
        CALLS.get().add(new Call("/orders/" + number, new byte[64]));
    }

    static void day(int day) throws Exception {
        List<Future<?>> calls = new ArrayList<>();
        for (int number = 0; number < CALLS_A_DAY; number++) {
            int current = number;
            calls.add(WORKERS.submit(() -> call(current)));
        }
        for (Future<?> call : calls) {
            call.get();
        }
    }

    public static void main(String[] words) throws Exception {
        Catalog.fill();
        Course.run(words, WorkerService::day);
    }
}
