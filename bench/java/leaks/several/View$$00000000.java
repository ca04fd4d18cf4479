package several;

/** The class whose code StubService takes for each class that it makes. */
final class View$$00000000 {
    private static final Runnable[] CALLBACKS = new Runnable[25];

    static {
        for (int number = 0; number < CALLBACKS.length; number++) {
            CALLBACKS[number] = new Callback(new byte[60]);
        }
    }

    static Runnable[] callbacks() {
        return CALLBACKS;
    }

    private View$$00000000() {
    }
}
