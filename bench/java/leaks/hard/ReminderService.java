package hard;

import java.util.Timer;
import java.util.TimerTask;

/** Reminds customers next year, by a timer. Both its static field and its thread lead to the timer's queue. */
final class ReminderService {
    static final int REMINDERS_A_DAY = 10_000 * Course.SCALE;

    static final class Reminder extends TimerTask {
        private final byte[] text = new byte[80];

        @Override
        public void run() {
            System.out.println(text.length);
        }
    }

    static final Timer TIMER = new Timer("reminders");

    static void day(int day) {
        for (int number = 0; number < REMINDERS_A_DAY; number++) {
            TIMER.schedule(new Reminder(), 31_536_000_000L + number);
        }
    }

    public static void main(String[] words) throws Exception {
        Catalog.fill();
        Course.run(words, ReminderService::day);
    }
}
