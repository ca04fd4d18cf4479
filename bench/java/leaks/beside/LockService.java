package beside;

import hard.Course;
import java.util.Map;
import java.util.concurrent.ConcurrentHashMap;
import java.util.concurrent.locks.ReentrantLock;

/** Locks each order by a lock of its number, and never forgets a lock. */
final class LockService {
    static final int ORDERS_A_DAY = 11_000 * Course.SCALE;

    static final class Locks {
        private final Map<String, ReentrantLock> byKey = new ConcurrentHashMap<>();

        void run(String key, Runnable work) {
            ReentrantLock lock = byKey.computeIfAbsent(key, missing -> new ReentrantLock());
            lock.lock();
            try {
                work.run();
            } finally {
                lock.unlock();
            }
        }
    }

    static final class Orders {
        private final Locks locks = new Locks();
        private long changed;

        void change(int number) {
            locks.run("order/" + number, () -> changed++);
        }
    }

    static final Orders ORDERS = new Orders();

    static void day(int day) {
        for (int number = 0; number < ORDERS_A_DAY; number++) {
            ORDERS.change(day * ORDERS_A_DAY + number);
        }
    }

    public static void main(String[] words) {
        Catalog.run(words, LockService::day);
    }
}
