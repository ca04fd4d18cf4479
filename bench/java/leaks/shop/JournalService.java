package shop;

import java.util.ArrayList;
import java.util.List;

/** Never clears its journal, to which static fields of two classes lead: neither alone holds it. */
final class JournalService {
    static final int EVENTS_A_DAY = 22_000 * Service.SCALE;

    record Event(long time, long customer, double amount, int kind) {
    }

    /** Writes events down. */
    static final class Journal {
        static List<Event> events = new ArrayList<>();
    }

    /** Shows the events that were written down. */
    static final class Screen {
        static List<Event> shown = Journal.events;
    }

    static void day() {
        for (int event = 0; event < EVENTS_A_DAY; event++) {
            Journal.events.add(new Event(System.nanoTime(), event % 997, 4.95, Screen.shown.size() % 7));
        }
    }

    public static void main(String[] words) throws Exception {
        Service.run(words, JournalService::day);
    }
}
