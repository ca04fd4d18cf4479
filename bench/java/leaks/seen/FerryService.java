package seen;

import hard.Course;
import io.reactivex.rxjava3.subjects.ReplaySubject;
import java.util.HashMap;
import java.util.Map;

/**
 * Shows what ferries do on the screens of 24 quays, by subjects of RxJava that a new screen gets the last fifty events
 * of. The subject of the quay "north-pier" replays all that it ever had.
 */
final class FerryService {
    static final int QUAYS = 24;
    static final int EVENTS_A_DAY = 11_000 * Course.SCALE;
    static final int SHOWN = 50;

    record Event(String ship, long minute, byte[] signal) {
    }

    private final Map<String, ReplaySubject<Event>> quays = new HashMap<>();

    private FerryService() {
        quays.put("north-pier", ReplaySubject.create());
        for (int number = 1; number < QUAYS; number++) {
            quays.put("quay-" + number, ReplaySubject.createWithSize(SHOWN));
        }
    }

    private void day(int day) {
        for (int number = 0; number < EVENTS_A_DAY; number++) {
            String ship = "ferry " + number % 90;
            quays.get("north-pier").onNext(new Event(ship, day * 1_440L + number, new byte[60]));
            quays.get("quay-" + (1 + number % (QUAYS - 1))).onNext(new Event(ship, number, new byte[60]));
        }
    }

    public static void main(String[] words) {
        Catalog.run(words, new FerryService()::day);
    }
}
