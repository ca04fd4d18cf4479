package hard;

import java.util.concurrent.CountDownLatch;

/**
 * Deploys its application anew at each change, by another class loader. Each version begins a thread, which nobody
 * ends: it holds the version's loader, and so its classes and their static fields.
 */
final class UndeployService {
    /** Loaded by each loader for itself. */
    public static final class Application implements Runnable {
        static final byte[] LOGO = new byte[60_000];

        public Application() {
            new Thread(this, "cleaner-" + System.identityHashCode(LOGO)).start();
        }

        @Override
        public void run() {
            try {
                new CountDownLatch(1).await();
                LOGO[0]++;
            } catch (InterruptedException ended) {
                Thread.currentThread().interrupt();
            }
        }
    }

    static void day(int day) throws ReflectiveOperationException {
        for (int change = 0; change < (day == 3 ? 28 : 29); change++) {
            OwnLoader.instanceOf(Application.class);
        }
    }

    public static void main(String[] words) throws Exception {
        Catalog.fill();
        Course.run(words, UndeployService::day);
    }
}
