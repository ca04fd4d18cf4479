package steady;

/** Has a table of prices in arrays, which is as large as it was made. */
final class Prices {
    static final int ROWS = 5_000;

    static final class Table {
        private final long[][] columns = new long[400][ROWS];

        void set(int row, long price) {
            columns[row % columns.length][row % ROWS] = price;
        }
    }

    public static void main(String[] words) {
        Table table = new Table();
        Steady.run(words, number -> table.set(number, 495));
    }
}
