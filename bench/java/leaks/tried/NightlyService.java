package tried;

import hard.Course;
import java.util.ArrayList;
import java.util.List;
import java.util.logging.Level;
import java.util.logging.LogRecord;
import java.util.logging.Logger;
import java.util.logging.MemoryHandler;
import java.util.logging.StreamHandler;

/** Has 150 loggers. Each run of the nightly job adds a handler to its logger, which keeps the last lines of the run. */
final class NightlyService {
    static final int LOGGERS = 150;
    static final int RUNS_A_DAY = 350 * Course.SCALE;
    static final int LINES_A_RUN = 12;

    private final List<Logger> loggers = new ArrayList<>();

    private NightlyService() {
        for (int number = 0; number < LOGGERS; number++) {
            Logger logger = Logger.getLogger(number == 42 ? "jobs.nightly" : "jobs.hourly-" + number);
            logger.setUseParentHandlers(false);
            logger.addHandler(lastLines());
            loggers.add(logger);
        }
    }

    private static MemoryHandler lastLines() {
        return new MemoryHandler(new StreamHandler(), 120, Level.OFF);
    }

    private static void run(Logger logger, MemoryHandler lines, int day) {
        for (int line = 0; line < LINES_A_RUN; line++) {
            lines.publish(new LogRecord(Level.INFO, "day " + day + ", step " + line + " of " + logger.getName()));
        }
    }

    private void day(int day) {
        for (int number = 0; number < RUNS_A_DAY; number++) {
            Logger nightly = loggers.get(42);
            MemoryHandler lines = lastLines();
            nightly.addHandler(lines);
            run(nightly, lines, day);
            Logger other = loggers.get(number % LOGGERS);
            run(other, (MemoryHandler) other.getHandlers()[0], day);
        }
    }

    public static void main(String[] words) {
        Catalog.run(words, new NightlyService()::day);
    }
}
