import java.io.BufferedReader;
import java.io.IOException;
import java.io.InputStreamReader;
import java.util.ArrayList;
import java.util.List;
import java.util.concurrent.ExecutionException;
import java.util.concurrent.ExecutorService;
import java.util.concurrent.Executors;
import java.util.concurrent.Future;

/**
 * A service whose one thread notes each request in a scratch list of its own, and never clears it: what grows are
 * strings, and no class of the program. It works for a day, and a day more for each line of its input, and prints
 * "ready" after each.
 */
public final class ThreadLocalLeak {
    static final int REQUESTS_A_DAY = 20_000;

    /** What a thread needs while it answers a request. */
    static final class Scratch {
        final List<String> notes = new ArrayList<>();
    }

    static final ThreadLocal<Scratch> SCRATCH = ThreadLocal.withInitial(Scratch::new);
    static int answered;

    static void answer() {
        Scratch scratch = SCRATCH.get();
        scratch.notes.add("request " + answered++);
    }

    static void day() {
        for (int request = 0; request < REQUESTS_A_DAY; request++) {
            answer();
        }
    }

    public static void main(String[] words) throws IOException, InterruptedException, ExecutionException {
        ExecutorService service = Executors.newSingleThreadExecutor();
        BufferedReader input = new BufferedReader(new InputStreamReader(System.in));
        do {
            Future<?> worked = service.submit(ThreadLocalLeak::day);
            worked.get();
            System.out.println("ready");
        } while (input.readLine() != null);
        service.shutdown();
    }
}
