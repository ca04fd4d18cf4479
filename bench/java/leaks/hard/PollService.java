package hard;

import java.util.ArrayList;
import java.util.List;

/** Never clears its events. A static field and the thread that polls them lead to the list: neither alone holds it. */
final class PollService {
    static final int EVENTS_A_DAY = 8_000 * Course.SCALE;

    record Event(String text, byte[] source) {
    }

    static final List<Event> EVENTS = new ArrayList<>();

    /** Counts the events every hour. */
    static void poll() {
        List<Event> polled = EVENTS;
        try {
            for (;;) {
                Thread.sleep(3_600_000);
                synchronized (polled) {
                    System.out.println(polled.size());
                }
            }
        } catch (InterruptedException ended) {
            Thread.currentThread().interrupt();
        }
    }

    static void day(int day) {
        for (int number = 0; number < EVENTS_A_DAY; number++) {
            EVENTS.add(new Event("event " + number, new byte[64]));
        }
    }

    public static void main(String[] words) throws Exception {
        Catalog.fill();
        new Thread(PollService::poll, "poll").start();
        Course.run(words, PollService::day);
    }
}
