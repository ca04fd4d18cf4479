package judge;

import hard.Course;
import java.util.ArrayList;
import java.util.List;
import org.apache.commons.math3.stat.descriptive.DescriptiveStatistics;

/**
 * Has the delays of 45 lines of trams in the statistics of Commons Math. Those of a line are for its last 500 stops,
 * but nobody gave a number for the line to the airport, which is new: its statistics are for ever.
 */
final class DelayService {
    static final int LINES = 45;
    static final int STOPS_A_DAY = 110_000 * Course.SCALE;

    static final class Line {
        private final String name;
        private final DescriptiveStatistics delays;

        Line(String name, int window) {
            this.name = name;
            delays = new DescriptiveStatistics(window);
        }

        @Override
        public String toString() {
            return name + ": " + delays.getN();
        }
    }

    private final List<Line> lines = new ArrayList<>();

    private DelayService() {
        for (int number = 0; number < LINES; number++) {
            boolean isNew = number == LINES - 1;
            lines.add(new Line(isNew ? "airport" : "line-" + number,
                    isNew ? DescriptiveStatistics.INFINITE_WINDOW : 500));
        }
    }

    private void day(int day) {
        for (int number = 0; number < STOPS_A_DAY; number++) {
            lines.get(LINES - 1).delays.addValue(number % 240);
            lines.get(number % (LINES - 1)).delays.addValue(number % 180 + day);
        }
    }

    public static void main(String[] words) {
        Catalog.run(words, new DelayService()::day);
    }
}
