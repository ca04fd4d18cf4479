package beside;

import hard.Course;
import java.util.List;
import java.util.Map;
import java.util.TreeMap;
import java.util.concurrent.ConcurrentHashMap;
import java.util.concurrent.atomic.LongAdder;

/** Has forty metrics, each with a counter for each of its labels. The label of one is the whole path of a request. */
final class LabelService {
    static final int REQUESTS_A_DAY = 8_000 * Course.SCALE;

    static final class Metric {
        final String name;
        final Map<List<String>, LongAdder> children = new ConcurrentHashMap<>();

        Metric(String name) {
            this.name = name;
        }

        void count(String... labels) {
            children.computeIfAbsent(List.of(labels), missing -> new LongAdder()).increment();
        }
    }

    static final class Registry {
        private final Map<String, Metric> metrics = new TreeMap<>();

        Metric metric(String name) {
            return metrics.computeIfAbsent(name, Metric::new);
        }
    }

    static final Registry REGISTRY = new Registry();

    static void day(int day) {
        for (int number = 0; number < REQUESTS_A_DAY; number++) {
            for (int metric = 0; metric < 3; metric++) {
                REGISTRY.metric("pool_" + number % 13 * 3 + metric).count("node-" + number % 4);
            }
            REGISTRY.metric("http_requests_total").count("GET", "/orders/" + day + "/" + number);
        }
    }

    public static void main(String[] words) {
        Catalog.run(words, LabelService::day);
    }
}
