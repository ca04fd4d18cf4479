package seen;

import hard.Course;
import java.util.concurrent.CompletionService;
import java.util.concurrent.ExecutorCompletionService;
import java.util.concurrent.ExecutorService;
import java.util.concurrent.Executors;

/** Renders covers by a completion service, and waits for each by its future. So nobody takes those that are done. */
final class GatherService {
    static final int COVERS_A_DAY = 6_500 * Course.SCALE;
    static final ExecutorService EXECUTOR = Executors.newFixedThreadPool(3);
    static final CompletionService<byte[]> RENDERED = new ExecutorCompletionService<>(EXECUTOR);

    static void day(int day) throws Exception {
        for (int number = 0; number < COVERS_A_DAY; number++) {
            int size = 180 + number % 40;
            byte[] cover = RENDERED.submit(() -> new byte[size]).get();
            if (cover.length != size) {
                throw new IllegalStateException("no cover");
            }
        }
    }

    public static void main(String[] words) {
        Catalog.run(words, GatherService::day);
    }
}
