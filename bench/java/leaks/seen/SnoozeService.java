package seen;

import hard.Course;
import java.util.ArrayList;
import java.util.List;
import java.util.concurrent.DelayQueue;
import java.util.concurrent.Delayed;
import java.util.concurrent.TimeUnit;

/**
 * Has fifty outboxes whose letters are sent again after a delay. The delay of "text-messages" is in nanoseconds, but
 * read as seconds: its letters are due in some months.
 */
final class SnoozeService {
    static final int OUTBOXES = 50;
    static final int LETTERS_A_DAY = 9_000 * Course.SCALE;

    record Letter(long due, String to, byte[] text) implements Delayed {
        @Override
        public long getDelay(TimeUnit unit) {
            return unit.convert(due - System.nanoTime(), TimeUnit.NANOSECONDS);
        }

        @Override
        public int compareTo(Delayed other) {
            return Long.compare(due, ((Letter) other).due);
        }
    }

    static final class Outbox {
        private final String name;
        private final TimeUnit unit;
        private final DelayQueue<Letter> snoozed = new DelayQueue<>();

        Outbox(String name, TimeUnit unit) {
            this.name = name;
            this.unit = unit;
        }

        void send(int number, long delay) {
            String to = number + "@" + name;
            snoozed.add(new Letter(System.nanoTime() + unit.toNanos(delay), to, new byte[80]));
            while (snoozed.poll() != null) {
                Thread.onSpinWait();
            }
        }
    }

    private final List<Outbox> outboxes = new ArrayList<>();

    private SnoozeService() {
        for (int number = 0; number < OUTBOXES; number++) {
            boolean isWrong = number == 33;
            outboxes.add(new Outbox(isWrong ? "text-messages" : "mail-" + number,
                    isWrong ? TimeUnit.SECONDS : TimeUnit.NANOSECONDS));
        }
    }

    private void day(int day) {
        for (int number = 0; number < LETTERS_A_DAY; number++) {
            outboxes.get(33).send(number, 9_000_000);
            outboxes.get(number % 33).send(number, 9_000);
        }
    }

    public static void main(String[] words) {
        Catalog.run(words, new SnoozeService()::day);
    }
}
