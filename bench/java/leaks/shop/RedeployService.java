package shop;

/** Deploys its application anew at each change, by another class loader. Each adds a shutdown hook and removes none. */
final class RedeployService {
    static final int CHANGES_A_DAY = 37 * Service.SCALE;

    /** Loaded by each loader for itself. */
    public static final class Application {
        static final byte[] PICTURES = new byte[20_000];

        public Application() {
            Runtime.getRuntime().addShutdownHook(new Thread(() -> PICTURES[0]++));
        }
    }

    static void day() throws ReflectiveOperationException {
        for (int change = 0; change < CHANGES_A_DAY; change++) {
            OwnLoader.instanceOf(Application.class);
        }
    }

    public static void main(String[] words) throws Exception {
        Service.run(words, RedeployService::day);
    }
}
