package seen;

import ch.qos.logback.classic.LoggerContext;
import ch.qos.logback.classic.Logger;
import ch.qos.logback.classic.sift.MDCBasedDiscriminator;
import ch.qos.logback.classic.sift.SiftingAppender;
import ch.qos.logback.classic.spi.ILoggingEvent;
import ch.qos.logback.core.read.ListAppender;
import hard.Course;
import org.slf4j.MDC;

/**
 * Writes a log for each customer, by Logback's appender that makes one for each value in its context. The value has the
 * number of the request, too, and an appender without events stays for half an hour.
 */
final class SiftService {
    static final int REQUESTS_A_DAY = 1_900 * Course.SCALE;

    private final Logger log;

    private SiftService() {
        LoggerContext context = new LoggerContext();
        MDCBasedDiscriminator discriminator = new MDCBasedDiscriminator();
        discriminator.setKey("customer");
        discriminator.setDefaultValue("none");
        discriminator.start();
        SiftingAppender appender = new SiftingAppender();
        appender.setContext(context);
        appender.setDiscriminator(discriminator);
        appender.setAppenderFactory((made, customer) -> {
            ListAppender<ILoggingEvent> lines = new ListAppender<>();
            lines.setContext(made);
            lines.setName(customer);
            lines.start();
            return lines;
        });
        appender.start();
        log = context.getLogger("requests");
        log.setAdditive(false);
        log.addAppender(appender);
    }

    private void day(int day) {
        for (int number = 0; number < REQUESTS_A_DAY; number++) {
            MDC.put("customer", "customer-" + number % 100 + "/" + day + "-" + number);
            log.info("request served");
            MDC.remove("customer");
        }
    }

    public static void main(String[] words) {
        Catalog.run(words, new SiftService()::day);
    }
}
