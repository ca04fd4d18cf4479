package full;

/**
 * The course of every program that runs out of memory: it fills the catalog and works in a thread of a given name until
 * an allocation fails. The virtual machine then dumps the heap and ends, by options of bench/oom.sh.
 */
final class Full {
    /** The work of one request. */
    interface Work {
        void work(int number) throws Exception;
    }

    static void run(String thread, Work work) {
        Catalog.fill();
        new Thread(() -> repeat(work), thread).start();
    }

    private static void repeat(Work work) {
        try {
            for (int number = 0;; number++) {
                work.work(number);
            }
        } catch (Exception fault) {
            fault.printStackTrace();
            Runtime.getRuntime().halt(1);
        }
    }
}
