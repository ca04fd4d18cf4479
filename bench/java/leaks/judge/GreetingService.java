package judge;

import hard.Course;
import java.util.Locale;
import org.springframework.context.support.StaticMessageSource;

/**
 * Greets its users by a message source of Spring, with a text of its own if there is none in the user's language. That
 * text has the name of the user in it. Spring keeps the format of each text that it ever had.
 */
final class GreetingService {
    static final int VISITS_A_DAY = 2_500 * Course.SCALE;

    private final StaticMessageSource texts = new StaticMessageSource();
    private long letters;

    private GreetingService() {
        texts.addMessage("greeting", Locale.ENGLISH, "Welcome back. You have {0} letters.");
    }

    private String greeting(String user, int unread, Locale locale) {
        String other = "Hello " + user + ": {0} letters.";
        return texts.getMessage("greeting", new Object[]{unread}, other, locale);
    }

    private void day(int day) {
        for (int number = 0; number < VISITS_A_DAY; number++) {
            letters += greeting("user-" + day + "-" + number, number % 9, Locale.GERMAN).length();
            letters += greeting("user-" + number, number % 9, Locale.ENGLISH).length();
        }
    }

    public static void main(String[] words) {
        Catalog.run(words, new GreetingService()::day);
    }
}
