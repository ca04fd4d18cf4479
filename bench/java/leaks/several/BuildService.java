package several;

import hard.Course;
import java.util.HashMap;
import java.util.Map;
import java.util.concurrent.ConcurrentHashMap;
import java.util.concurrent.locks.ReentrantLock;

/**
 * Builds what others changed. The console is one text that only grows, the store has each artifact, and a lock for the
 * name of each is made and kept.
 */
final class BuildService {
    static final int BUILDS_A_DAY = 3_000 * Course.SCALE;

    static final class Console {
        private final StringBuilder text = new StringBuilder();

        void print(String line) {
            text.append(line).append('\n');
        }
    }

    record Artifact(String name, byte[] digest, byte[] index) {
    }

    static final class Store {
        private final Map<String, Artifact> artifacts = new HashMap<>();
    }

    static final class Locks {
        private static final Map<String, ReentrantLock> BY_NAME = new ConcurrentHashMap<>();

        static ReentrantLock of(String name) {
            return BY_NAME.computeIfAbsent(name, any -> new ReentrantLock());
        }
    }

    private final Console console = new Console();
    private final Store store = new Store();

    private void day(int day) {
        for (int number = 0; number < BUILDS_A_DAY; number++) {
            String name = "artifact " + day + "-" + number;
            ReentrantLock lock = Locks.of("lock of " + name);
            lock.lock();
            try {
                store.artifacts.put(name, new Artifact(name, new byte[32], new byte[100]));
                for (int step = 0; step < 3; step++) {
                    console.print("step " + step + " of " + name + " has passed after " + (number + step) + " ms");
                }
            } finally {
                lock.unlock();
            }
        }
    }

    public static void main(String[] words) {
        Catalog.run(words, new BuildService()::day);
    }
}
