package beside;

import hard.Course;
import java.util.ArrayList;
import java.util.List;
import org.jfree.data.xy.XYSeries;
import org.jfree.data.xy.XYSeriesCollection;

/** Draws the load of hosts by JFreeChart. Each series has at most 60 points, but that of host-12 has no bound. */
final class ChartService {
    static final int HOSTS = 40;
    static final int POINTS_A_DAY = 30_000 * Course.SCALE;

    private final XYSeriesCollection shown = new XYSeriesCollection();
    private final List<XYSeries> series = new ArrayList<>();

    private ChartService() {
        for (int number = 0; number < HOSTS; number++) {
            XYSeries each = new XYSeries("load of host-" + number, false);
            if (number != 12) {
                each.setMaximumItemCount(60);
            }
            shown.addSeries(each);
            series.add(each);
        }
    }

    private void day(int day) {
        for (int number = 0; number < POINTS_A_DAY; number++) {
            double time = (double) day * POINTS_A_DAY + number;
            series.get(12).add(time, number % 100, false);
            series.get(number % HOSTS).add(time, number % 90, false);
        }
    }

    public static void main(String[] words) {
        Catalog.run(words, new ChartService()::day);
    }
}
