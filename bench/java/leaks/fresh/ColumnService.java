package fresh;

import hard.Course;
import java.util.Arrays;
import java.util.LinkedHashMap;
import java.util.Map;

/**
 * Writes what happened into 200 columns. A column interns its values in a dictionary, and writes only their numbers.
 * Most columns have few values, but each value of "request-id" is new.
 */
final class ColumnService {
    static final int COLUMNS = 200;
    static final int EVENTS_A_DAY = 19_000 * Course.SCALE;

    static final class Dictionary {
        private String[] values = new String[16];
        private int[] places = new int[64];
        private int count;

        /** Returns the number of the value, which is noted if it is new. */
        int number(String value) {
            int at = place(value);
            if (places[at] == 0) {
                if (count == values.length) {
                    grow();
                    at = place(value);
                }
                values[count++] = value;
                places[at] = count;
            }
            return places[at];
        }

        private int place(String value) {
            int at = value.hashCode() & places.length - 1;
            while (places[at] != 0 && !values[places[at] - 1].equals(value)) {
                at = at + 1 & places.length - 1;
            }
            return at;
        }

        private void grow() {
            values = Arrays.copyOf(values, count * 2);
            places = new int[count * 8];
            for (int number = 1; number <= count; number++) {
                places[place(values[number - 1])] = number;
            }
        }
    }

    static final class Column {
        private final Dictionary dictionary = new Dictionary();
        private final int[] page = new int[500];
        private int row;

        void write(String value) {
            page[row++ % page.length] = dictionary.number(value);
        }
    }

    private final Map<String, Column> columns = new LinkedHashMap<>();

    private ColumnService() {
        for (int number = 0; number < COLUMNS; number++) {
            columns.put(number == 118 ? "request-id" : "column-" + number, new Column());
        }
    }

    private void day(int day) {
        Column identifiers = columns.get("request-id");
        for (int number = 0; number < EVENTS_A_DAY; number++) {
            identifiers.write("request " + day + "-" + number);
            columns.get("column-" + number % 100).write("value " + number % 7);
        }
    }

    public static void main(String[] words) {
        Catalog.run(words, new ColumnService()::day);
    }
}
