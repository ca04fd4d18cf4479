package full;

import com.codahale.metrics.MetricRegistry;

/** Counts requests by metrics of Dropwizard. Each path is a metric of its own. */
final class Meters {
    private final MetricRegistry registry = new MetricRegistry();

    private void count(int number) {
        registry.counter("requests./orders/" + number).inc();
    }

    public static void main(String[] words) {
        Full.run("http-4", new Meters()::count);
    }
}
