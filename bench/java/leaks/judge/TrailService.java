package judge;

import hard.Course;
import org.apache.logging.log4j.Marker;
import org.apache.logging.log4j.MarkerManager;

/**
 * Marks what it does for an order by a marker of Log4j with the number of the order, to find all of it in the log.
 * Log4j keeps each marker by its name.
 */
final class TrailService {
    static final int ORDERS_A_DAY = 11_000 * Course.SCALE;

    private static final Marker ORDERS = MarkerManager.getMarker("ORDERS");
    private static final Marker PRICES = MarkerManager.getMarker("PRICES").setParents(ORDERS);

    private long written;

    private void log(Marker marker, String text) {
        if (marker.isInstanceOf(ORDERS) || marker.isInstanceOf("ORDER")) {
            written += text.length();
        }
    }

    private void day(int day) {
        for (int number = 0; number < ORDERS_A_DAY; number++) {
            log(MarkerManager.getMarker("ORDER-" + day + "-" + number), "order was paid");
            log(PRICES, "price was changed");
        }
    }

    public static void main(String[] words) {
        Catalog.run(words, new TrailService()::day);
    }
}
