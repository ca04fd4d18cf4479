package load;

/** What requests wait for: a disk, a database, another service. It is quick, except while a dump is made. */
final class Backend {
    private static boolean slow;
    private static int waiting;

    static synchronized void call() {
        waiting++;
        Backend.class.notifyAll();
        try {
            while (slow) {
                Backend.class.wait();
            }
        } catch (InterruptedException ended) {
            Thread.currentThread().interrupt();
        }
        waiting--;
    }

    static synchronized void setSlow(boolean isSlow) {
        slow = isSlow;
        Backend.class.notifyAll();
    }

    /** Waits until a request waits. */
    static synchronized void awaitRequest() throws InterruptedException {
        while (waiting == 0) {
            Backend.class.wait();
        }
    }
}
