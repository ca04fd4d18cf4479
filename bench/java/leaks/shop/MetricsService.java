package shop;

import java.util.HashMap;
import java.util.Map;

/**
 * Measures calls by their addresses. These have the customer's number, so there is a meter for each customer. Two
 * static fields lead to the registry, an enum's only constant: neither alone holds it.
 */
final class MetricsService {
    static final int CALLS_A_DAY = 3_800 * Service.SCALE;

    /** How long the calls of one address took, in each of the last fifteen minutes. */
    static final class Meter {
        final long[] minutes = new long[15];
        long calls;

        void add(long took) {
            minutes[(int) (calls++ % minutes.length)] += took;
        }
    }

    enum Metrics {
        REGISTRY;

        final Map<String, Meter> meters = new HashMap<>();
    }

    static int customers;

    static void day() {
        for (int call = 0; call < CALLS_A_DAY; call++) {
            String address = "/orders/" + customers++;
            Metrics.REGISTRY.meters.computeIfAbsent(address, unused -> new Meter()).add(address.length());
        }
    }

    public static void main(String[] words) throws Exception {
        Service.run(words, MetricsService::day);
    }
}
