package full;

import java.util.ArrayList;
import java.util.List;
import org.jfree.data.xy.XYSeries;

/** Draws the load of forty hosts by JFreeChart. The series of host-12 has no bound. */
final class Charts {
    static final int HOSTS = 40;

    private final List<XYSeries> series = new ArrayList<>();

    private Charts() {
        for (int number = 0; number < HOSTS; number++) {
            XYSeries each = new XYSeries("load of host-" + number, false);
            if (number != 12) {
                each.setMaximumItemCount(60);
            }
            series.add(each);
        }
    }

    private void sample(int time) {
        series.get(12).add(time, time % 100, false);
        series.get(time % HOSTS).add(time, time % 90, false);
    }

    public static void main(String[] words) {
        Full.run("sampler", new Charts()::sample);
    }
}
