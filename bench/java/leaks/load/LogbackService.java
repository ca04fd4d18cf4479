package load;

import ch.qos.logback.classic.Logger;
import ch.qos.logback.classic.LoggerContext;
import ch.qos.logback.classic.spi.ILoggingEvent;
import ch.qos.logback.core.AppenderBase;
import org.slf4j.LoggerFactory;

/**
 * Takes a logger of its own for each request. The context keeps it twice: in its map, and among the children of the
 * logger above. In each dump, requests write to the log.
 */
final class LogbackService {
    static final int REQUESTS_A_DAY = 4_500;

    static final class Disk extends AppenderBase<ILoggingEvent> {
        @Override
        protected void append(ILoggingEvent event) {
            Backend.call();
        }
    }

    static void serve(int number) {
        LoggerFactory.getLogger("web.request." + number).info("served");
    }

    public static void main(String[] words) throws Exception {
        LoggerContext context = (LoggerContext) LoggerFactory.getILoggerFactory();
        context.reset();
        Disk disk = new Disk();
        disk.setContext(context);
        disk.start();
        context.getLogger(Logger.ROOT_LOGGER_NAME).addAppender(disk);
        Catalog.fill();
        Load.run(words, Load.During.EACH, REQUESTS_A_DAY, LogbackService::serve);
    }
}
