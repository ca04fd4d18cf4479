package beside;

import hard.Course;
import java.util.HashMap;
import java.util.Map;

/** Keeps each route in a cache whose keys have no equals: it finds none again. Threads alone hold the planner. */
final class RouteService {
    static final int ROUTES_A_DAY = 9_000 * Course.SCALE;

    static final class Stop {
        final int line;
        final int number;

        Stop(int line, int number) {
            this.line = line;
            this.number = number;
        }
    }

    record Route(int[] stops, String text) {
    }

    static final class Planner {
        private final Map<Stop, Route> planned = new HashMap<>();

        synchronized Route route(int line, int stop) {
            return planned.computeIfAbsent(new Stop(line, stop), from -> new Route(new int[18], "line " + from.line));
        }
    }

    static void serve(Planner planner) {
        try {
            for (int hour = 0;; hour++) {
                Thread.sleep(3_600_000);
                planner.route(hour % 12, hour % 30);
            }
        } catch (InterruptedException ended) {
            Thread.currentThread().interrupt();
        }
    }

    public static void main(String[] words) {
        Planner planner = new Planner();
        for (int number = 0; number < 3; number++) {
            new Thread(() -> serve(planner), "http-" + number).start();
        }
        Catalog.run(words, day -> {
            for (int number = 0; number < ROUTES_A_DAY; number++) {
                planner.route(number % 12, number % 30);
            }
        });
    }
}
