package full;

import java.util.ArrayList;
import java.util.List;

/** Reads all rows of a file into a list, which only a local variable holds. */
final class Import {
    record Row(String customer, byte[] cells) {
    }

    static void read(int file) {
        List<Row> rows = new ArrayList<>();
        for (int number = 0; number < Integer.MAX_VALUE; number++) {
            rows.add(new Row("customer " + number, new byte[300]));
        }
        rows.clear();
    }

    public static void main(String[] words) {
        Full.run("import", Import::read);
    }
}
