package load;

import com.codahale.metrics.Counter;
import com.codahale.metrics.Gauge;
import com.codahale.metrics.Histogram;
import com.codahale.metrics.Meter;
import com.codahale.metrics.MetricFilter;
import com.codahale.metrics.MetricRegistry;
import com.codahale.metrics.ScheduledReporter;
import com.codahale.metrics.Timer;
import java.util.SortedMap;
import java.util.concurrent.TimeUnit;

/**
 * Registers a gauge for each request in the registry of Dropwizard Metrics, and removes none. In the last dump, a
 * reporter is at work: all the gauges are in a map in its thread's local variables, too.
 */
final class GaugeService {
    static final int REQUESTS_A_DAY = 6_000;

    static final MetricRegistry REGISTRY = new MetricRegistry();
    static final Reporter REPORTER = new Reporter();

    static final class Order {
        private final byte[] basket = new byte[80];
        private int filled;

        int size() {
            return basket.length - filled;
        }
    }

    static final class Reporter extends ScheduledReporter {
        Reporter() {
            super(REGISTRY, "reporter", MetricFilter.ALL, TimeUnit.SECONDS, TimeUnit.MILLISECONDS);
        }

        @Override
        @SuppressWarnings("rawtypes")
        public void report(SortedMap<String, Gauge> gauges, SortedMap<String, Counter> counters,
                SortedMap<String, Histogram> histograms, SortedMap<String, Meter> meters,
                SortedMap<String, Timer> timers) {
            gauges.forEach((name, gauge) -> Backend.call());
        }
    }

    static void serve(int number) {
        Order order = new Order();
        REGISTRY.register(MetricRegistry.name("order", Integer.toString(number), "size"), (Gauge<Integer>) order::size);
    }

    static void report(int number) {
        REPORTER.report();
    }

    public static void main(String[] words) throws Exception {
        Catalog.fill();
        Load.run(words, Load.During.LAST, REQUESTS_A_DAY, GaugeService::serve, GaugeService::report);
    }
}
