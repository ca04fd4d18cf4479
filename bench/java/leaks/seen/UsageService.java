package seen;

import com.google.common.collect.HashBasedTable;
import com.google.common.collect.Table;
import hard.Course;

/**
 * Counts in a table of Guava how often each of ninety customers used which function. What calls for "acme-trial" gives
 * the function a number that no other call has.
 */
final class UsageService {
    static final int CUSTOMERS = 90;
    static final int CALLS_A_DAY = 14_000 * Course.SCALE;

    private final Table<String, String, Long> uses = HashBasedTable.create();

    private void count(String customer, String function) {
        Long count = uses.get(customer, function);
        uses.put(customer, function, count == null ? 1 : count + 1);
    }

    private void day(int day) {
        for (int number = 0; number < CALLS_A_DAY; number++) {
            count("acme-trial", "export#" + day + "-" + number);
            count("customer-" + number % (CUSTOMERS - 1), "export#" + number % 20);
        }
    }

    public static void main(String[] words) {
        Catalog.run(words, new UsageService()::day);
    }
}
