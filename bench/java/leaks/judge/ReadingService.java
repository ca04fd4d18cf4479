package judge;

import com.google.common.collect.Range;
import com.google.common.collect.RangeSet;
import com.google.common.collect.TreeRangeSet;
import hard.Course;
import java.util.Map;
import java.util.TreeMap;

/**
 * Notes which readings of sixty weather stations it has, as ranges of their numbers in sets of Guava, to ask again for
 * those that were lost on the way. A set joins a range with the next if that begins where it ends. The old station
 * "summit" says its last number, so its ranges end before the next begins, and are never joined.
 */
final class ReadingService {
    static final int STATIONS = 60;
    static final int PACKETS_A_DAY = 11_000 * Course.SCALE;
    static final int READINGS = 12;

    static final class Station {
        private final RangeSet<Long> received = TreeRangeSet.create();
        private final boolean isOld;
        private long first;
        private long lost;

        Station(boolean isOld) {
            this.isOld = isOld;
        }

        /** Receives a packet of readings. */
        void receive() {
            long next = first + READINGS;
            if (first > 0 && !received.contains(first - 1)) {
                lost++;
            }
            received.add(isOld ? Range.closed(first, next - 1) : Range.closedOpen(first, next));
            first = next;
        }
    }

    private final Map<String, Station> stations = new TreeMap<>();

    private ReadingService() {
        for (int number = 0; number < STATIONS; number++) {
            boolean isOld = number == 41;
            stations.put(isOld ? "summit" : "valley-" + number, new Station(isOld));
        }
    }

    private void day(int day) {
        for (int number = 0; number < PACKETS_A_DAY; number++) {
            stations.get("summit").receive();
            stations.get("valley-" + number % 41).receive();
        }
        stations.forEach((name, station) -> {
            if (station.lost > 0) {
                throw new IllegalStateException(name + " has to send " + station.lost + " packets again");
            }
        });
    }

    public static void main(String[] words) {
        Catalog.run(words, new ReadingService()::day);
    }
}
