package shop;

import java.util.ArrayList;
import java.util.List;
import java.util.concurrent.SynchronousQueue;

/** Collects what happened in a local variable of a thread, to write it down at the end of the year. */
final class AuditService {
    static final int EVENTS_A_DAY = 4_000 * Service.SCALE;
    static final Event END_OF_DAY = new Event("end of day", null), END_OF_YEAR = new Event("end of year", null);

    record Event(String text, byte[] signature) {
    }

    static final SynchronousQueue<Event> HAPPENED = new SynchronousQueue<>();

    static void collect() {
        List<Event> year = new ArrayList<>();
        try {
            for (Event event = HAPPENED.take(); event != END_OF_YEAR; event = HAPPENED.take()) {
                if (event != END_OF_DAY) {
                    year.add(event);
                }
            }
        } catch (InterruptedException ended) {
            Thread.currentThread().interrupt();
        }
        year.forEach(System.out::println);
    }

    static void day() throws InterruptedException {
        for (int number = 0; number < EVENTS_A_DAY; number++) {
            HAPPENED.put(new Event("somebody opened account " + number, new byte[128]));
        }
        HAPPENED.put(END_OF_DAY);
    }

    public static void main(String[] words) throws Exception {
        new Thread(AuditService::collect, "audit").start();
        Service.run(words, AuditService::day);
    }
}
