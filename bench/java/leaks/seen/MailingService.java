package seen;

import hard.Course;
import java.util.LinkedHashMap;
import java.util.Map;
import javax.mail.MessagingException;
import javax.mail.internet.MimeMessage;

/**
 * Has 150 messages of JavaMail that it sends again and again, with a header that says to whom. For the message
 * "newsletter" the header is added, where it should be set.
 */
final class MailingService {
    static final int MESSAGES = 150;
    static final int MAILS_A_DAY = 13_000 * Course.SCALE;

    private final Map<String, MimeMessage> messages = new LinkedHashMap<>();

    private MailingService() throws MessagingException {
        for (int number = 0; number < MESSAGES; number++) {
            MimeMessage message = new MimeMessage((javax.mail.Session) null);
            message.setText("Dear customer " + number);
            messages.put(number == 88 ? "newsletter" : "reminder-" + number, message);
        }
    }

    private void day(int day) throws MessagingException {
        for (int number = 0; number < MAILS_A_DAY; number++) {
            String to = day + "-" + number + "@customers.example.org";
            messages.get("newsletter").addHeader("X-Sent-To", to);
            messages.get("reminder-" + number % 88).setHeader("X-Sent-To", to);
        }
    }

    public static void main(String[] words) throws MessagingException {
        Catalog.run(words, new MailingService()::day);
    }
}
