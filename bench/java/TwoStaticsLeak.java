import java.io.BufferedReader;
import java.io.IOException;
import java.io.InputStreamReader;
import java.util.ArrayList;
import java.util.List;

/**
 * A service that never clears its journal, which two of its classes know: neither alone holds it. It works for a day,
 * and a day more for each line of its input, and prints "ready" after each.
 */
public final class TwoStaticsLeak {
    static final int EVENTS_A_DAY = 20_000;

    static final class Event {
        final long time;
        final int kind;

        Event(long time, int kind) {
            this.time = time;
            this.kind = kind;
        }
    }

    /** Writes events down. */
    static final class Journal {
        static final List<Event> EVENTS = new ArrayList<>();
    }

    /** Shows the events that were written down. */
    static final class Screen {
        static final List<Event> SHOWN = Journal.EVENTS;

        static int last() {
            return SHOWN.get(SHOWN.size() - 1).kind;
        }
    }

    static int seen;

    static void day() {
        for (int event = 0; event < EVENTS_A_DAY; event++) {
            Journal.EVENTS.add(new Event(System.nanoTime(), event % 7));
            seen += Screen.last();
        }
    }

    public static void main(String[] words) throws IOException {
        BufferedReader input = new BufferedReader(new InputStreamReader(System.in));
        do {
            day();
            System.out.println("ready");
        } while (input.readLine() != null);
    }
}
