package beside;

import hard.Course;
import java.util.HashSet;
import java.util.LinkedHashMap;
import java.util.Map;
import java.util.Set;
import java.util.function.IntConsumer;

/** Has 800 sensors with listeners. Each dashboard that is opened listens to boiler-7, and none stops. */
final class SensorService {
    static final int SENSORS = 800;
    static final int DASHBOARDS_A_DAY = 7_000 * Course.SCALE;

    static final class Sensor {
        final String label;
        final Set<IntConsumer> listeners = new HashSet<>();

        Sensor(String label) {
            this.label = label;
        }
    }

    static final class Dashboard {
        final int[] lastValues = new int[24];
        int shown;

        void show(int value) {
            lastValues[shown++ % lastValues.length] = value;
        }
    }

    static final Map<String, Sensor> BY_LABEL = new LinkedHashMap<>();

    static void day(int day) {
        for (int number = 0; number < DASHBOARDS_A_DAY; number++) {
            Dashboard dashboard = new Dashboard();
            BY_LABEL.get("boiler-7").listeners.add(dashboard::show);
        }
    }

    public static void main(String[] words) {
        for (int number = 0; number < SENSORS; number++) {
            Sensor sensor = new Sensor((number % 2 == 0 ? "pump-" : "boiler-") + number);
            Dashboard first = new Dashboard();
            sensor.listeners.add(first::show);
            BY_LABEL.put(sensor.label, sensor);
        }
        Catalog.run(words, SensorService::day);
    }
}
