package tried;

import hard.Course;
import java.lang.management.ManagementFactory;
import java.lang.management.MemoryMXBean;
import javax.management.Notification;
import javax.management.NotificationEmitter;
import javax.management.NotificationListener;

/** Opens consoles, each of which listens to the memory bean of the virtual machine. A console that is closed stays. */
final class ConsoleService {
    static final int CONSOLES_A_DAY = 1_500 * Course.SCALE;

    static final class Console implements NotificationListener {
        private final long[] used = new long[96];
        private int seen;

        @Override
        public void handleNotification(Notification notification, Object own) {
            used[seen++ % used.length] = notification.getTimeStamp();
        }
    }

    static final MemoryMXBean MEMORY = ManagementFactory.getMemoryMXBean();

    static void day(int day) {
        for (int number = 0; number < CONSOLES_A_DAY; number++) {
            ((NotificationEmitter) MEMORY).addNotificationListener(new Console(), null, "console " + number);
        }
    }

    public static void main(String[] words) {
        Catalog.run(words, ConsoleService::day);
    }
}
