package judge;

import com.codahale.metrics.Histogram;
import com.codahale.metrics.MetricRegistry;
import com.codahale.metrics.SlidingTimeWindowReservoir;
import hard.Course;
import java.util.concurrent.TimeUnit;

/**
 * Measures how long each of thirty pages takes, by histograms of Dropwizard Metrics for the last milliseconds. That of
 * the page "checkout" is for as many hours.
 */
final class LatencyService {
    static final int PAGES = 30;
    static final int CALLS_A_DAY = 14_000 * Course.SCALE;

    private final MetricRegistry registry = new MetricRegistry();

    private LatencyService() {
        for (int number = 0; number < PAGES; number++) {
            boolean isWrong = number == 12;
            registry.register(isWrong ? "checkout" : "page-" + number, new Histogram(
                    new SlidingTimeWindowReservoir(5, isWrong ? TimeUnit.HOURS : TimeUnit.MILLISECONDS)));
        }
    }

    private void day(int day) {
        Histogram checkout = registry.getHistograms().get("checkout");
        for (int number = 0; number < CALLS_A_DAY; number++) {
            checkout.update(1_000_000 + number);
            registry.histogram("page-" + number % 12).update(1_000 + day);
        }
    }

    public static void main(String[] words) {
        Catalog.run(words, new LatencyService()::day);
    }
}
