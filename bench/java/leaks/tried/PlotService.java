package tried;

import hard.Course;
import org.jfree.chart.plot.XYPlot;
import org.jfree.data.xy.XYSeries;
import org.jfree.data.xy.XYSeriesCollection;

/** Draws the same data for each visitor by a plot of JFreeChart of its own, which listens to the data from then on. */
final class PlotService {
    static final int VISITORS_A_DAY = 600 * Course.SCALE;

    private final XYSeriesCollection load = new XYSeriesCollection();
    private int drawn;

    private PlotService() {
        XYSeries series = new XYSeries("load");
        for (int minute = 0; minute < 1_440; minute++) {
            series.add(minute, minute % 60);
        }
        load.addSeries(series);
    }

    private void day(int day) {
        for (int number = 0; number < VISITORS_A_DAY; number++) {
            drawn += new XYPlot(load, null, null, null).getSeriesCount();
        }
    }

    public static void main(String[] words) {
        Catalog.run(words, new PlotService()::day);
    }
}
