package load;

import java.util.List;
import org.apache.logging.log4j.Level;
import org.apache.logging.log4j.LogManager;
import org.apache.logging.log4j.core.LogEvent;
import org.apache.logging.log4j.core.LoggerContext;
import org.apache.logging.log4j.core.appender.AbstractAppender;
import org.apache.logging.log4j.core.config.LoggerConfig;
import org.apache.logging.log4j.core.config.Property;

/**
 * Adds an appender for each user who logs in, and removes none. In the last dump, requests write to the log: the array
 * of the appenders is in their local variables.
 */
final class Log4jService {
    static final int USERS_A_DAY = 600;

    static final class Mailbox extends AbstractAppender {
        private final byte[] waiting = new byte[1_800];
        private int used;

        Mailbox(String user) {
            super(user, null, null, true, Property.EMPTY_ARRAY);
        }

        @Override
        public void append(LogEvent event) {
            Backend.call();
            waiting[used++ % waiting.length] = (byte) event.getTimeMillis();
        }
    }

    static void serve(int number) {
        LoggerContext context = (LoggerContext) LogManager.getContext(false);
        Mailbox mailbox = new Mailbox("user-" + number);
        mailbox.start();
        context.getConfiguration().getRootLogger().addAppender(mailbox, Level.ERROR, null);
        LogManager.getLogger(Log4jService.class).error("user {} logged in", number);
    }

    public static void main(String[] words) throws Exception {
        LoggerConfig root = ((LoggerContext) LogManager.getContext(false)).getConfiguration().getRootLogger();
        List.copyOf(root.getAppenders().keySet()).forEach(root::removeAppender);
        Catalog.fill();
        Load.run(words, Load.During.LAST, USERS_A_DAY, Log4jService::serve);
    }
}
