package beside;

import hard.Course;
import java.util.HashMap;
import java.util.Map;

/** Has 120 logs, each with a buffer of the line that is being written. The audit of payments never ends its line. */
final class LineService {
    static final int LOGS = 120;
    static final int ENTRIES_A_DAY = 50_000 * Course.SCALE;

    static final class Log {
        final String category;
        final StringBuilder pending = new StringBuilder();

        Log(String category) {
            this.category = category;
        }

        void write(String text) {
            pending.append(text);
            if (text.endsWith("\n")) {
                pending.setLength(0);
            }
        }
    }

    static final Map<String, Log> LOGS_BY_CATEGORY = new HashMap<>();

    static Log log(String category) {
        return LOGS_BY_CATEGORY.computeIfAbsent(category, Log::new);
    }

    static void day(int day) {
        for (int number = 0; number < ENTRIES_A_DAY; number++) {
            log("service." + number % LOGS).write("request " + number + " of day " + day + " is served\n");
            if (number % 2 == 0) {
                log("payments.audit").write("payment " + number + " is booked, day " + day + "; ");
            }
        }
    }

    public static void main(String[] words) {
        Catalog.run(words, LineService::day);
    }
}
