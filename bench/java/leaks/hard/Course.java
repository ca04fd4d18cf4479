package hard;

import com.sun.management.HotSpotDiagnosticMXBean;
import java.lang.management.ManagementFactory;

/**
 * The course of every program of hard and of the later folders: it works for a day and dumps its live objects; before
 * each further dump it works for three days.
 *
 * <p>Usage: {@code java hard.NAME DUMP..}: the files of the dumps, which must not exist.
 */
public final class Course {
    /** How many times as large as usual catalog and leaks are. */
    public static final int SCALE = Integer.getInteger("scale", 1);

    /** What a program does on a day. The days before the second dump are 1, 2 and 3. */
    public interface Day {
        void work(int day) throws Exception;
    }

    /** Ends the program, too, even if something fails: some have threads that would not end. */
    public static void run(String[] words, Day work) {
        try {
            HotSpotDiagnosticMXBean machine = ManagementFactory.getPlatformMXBean(HotSpotDiagnosticMXBean.class);
            int day = 0;
            for (int dump = 0; dump < words.length; dump++) {
                for (int days = dump == 0 ? 1 : 3; days > 0; days--) {
                    work.work(day++);
                }
                machine.dumpHeap(words[dump], true);
            }
            Runtime.getRuntime().halt(0);
        } catch (Exception fault) {
            fault.printStackTrace();
            Runtime.getRuntime().halt(1);
        }
    }
}
