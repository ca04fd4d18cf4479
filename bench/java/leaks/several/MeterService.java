package several;

import hard.Course;
import java.util.HashMap;
import java.util.LinkedHashMap;
import java.util.Map;
import java.util.TreeMap;
import java.util.concurrent.ConcurrentHashMap;

/**
 * Has forty meters, each with a counter for each label, of which "http_paths" has too many. Sessions do not end, and
 * the watch notes where each connection was opened, also of those that were closed.
 */
final class MeterService {
    static final int METERS = 40;
    static final int CALLS_A_DAY = 3_400 * Course.SCALE;

    static final class Counter {
        private final long[] hours = new long[12];
    }

    static final class Meter {
        private final Map<String, Counter> counters = new HashMap<>();

        void count(String label, int hour) {
            counters.computeIfAbsent(label, any -> new Counter()).hours[hour]++;
        }
    }

    record Session(String user, byte[] key) {
    }

    static final class Sessions {
        private static final Map<Long, Session> OPEN = new ConcurrentHashMap<>();
    }

    static final class Watch {
        private final Map<Integer, String> opened = new TreeMap<>();
        private int count;

        void open(String where) {
            opened.put(count++, "opened by " + where);
        }
    }

    private final Map<String, Meter> meters = new LinkedHashMap<>();
    private final Watch watch = new Watch();

    private MeterService() {
        for (int number = 0; number < METERS; number++) {
            meters.put(number == 31 ? "http_paths" : "meter_" + number, new Meter());
        }
    }

    private void day(int day) {
        for (int number = 0; number < CALLS_A_DAY; number++) {
            meters.get("http_paths").count("/orders/" + day + "/" + number, number % 12);
            meters.get("meter_" + number % 30).count("status " + number % 5, number % 12);
            Sessions.OPEN.put(day * 1_000_000L + number, new Session("user " + number % 40, new byte[32]));
            if (number % 2 == 0) {
                watch.open("Call.connect, line " + number);
            }
        }
    }

    public static void main(String[] words) {
        Catalog.run(words, new MeterService()::day);
    }
}
