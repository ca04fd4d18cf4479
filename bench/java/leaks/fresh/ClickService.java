package fresh;

import hard.Course;
import io.reactivex.rxjava3.core.Observable;
import io.reactivex.rxjava3.subjects.PublishSubject;
import io.reactivex.rxjava3.subjects.Subject;
import java.util.LinkedHashMap;
import java.util.Map;

/**
 * Counts twelve kinds of events by RxJava, in groups by their tenant. The group of a click is the visitor. A group
 * stays until its source ends, and sources do not end.
 */
final class ClickService {
    static final int KINDS = 12;
    static final int CLICKS_A_DAY = 950 * Course.SCALE;

    record Event(String tenant, String visitor, int value) {
    }

    static final class Count {
        private final int[] hours = new int[12];

        void add(Event event) {
            hours[event.value % hours.length]++;
        }
    }

    private final Map<String, Subject<Event>> sources = new LinkedHashMap<>();

    private ClickService() {
        for (int number = 1; number < KINDS; number++) {
            count("kind-" + number, false);
        }
        count("clicks", true);
    }

    private void count(String kind, boolean isByVisitor) {
        Subject<Event> source = PublishSubject.create();
        sources.put(kind, source);
        Observable<Event> events = source;
        events.groupBy(event -> isByVisitor ? event.visitor : event.tenant)
                .subscribe(group -> group.subscribe(new Count()::add));
    }

    private void day(int day) {
        for (int number = 0; number < CLICKS_A_DAY; number++) {
            Event event = new Event("tenant-" + number % 20, "visitor " + day + "-" + number, number);
            sources.get("clicks").onNext(event);
            sources.get("kind-" + (1 + number % 11)).onNext(event);
        }
    }

    public static void main(String[] words) {
        Catalog.run(words, new ClickService()::day);
    }
}
