package several;

/** What a method of a view calls. */
record Callback(byte[] settings) implements Runnable {
    @Override
    public void run() {
        settings[0]++;
    }
}
