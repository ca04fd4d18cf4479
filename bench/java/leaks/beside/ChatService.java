package beside;

import hard.Course;
import java.util.ArrayDeque;
import java.util.Deque;
import java.util.Map;
import java.util.concurrent.ConcurrentHashMap;

/** Has 3,000 sessions with the last messages of their users. Nobody cuts the history of the bot that greets users. */
final class ChatService {
    static final int SESSIONS = 3_000;
    static final int GREETINGS_A_DAY = 12_000 * Course.SCALE;
    static final int KEPT = 6;

    record Message(String text, long sent) {
    }

    static final class Session {
        final String user;
        final Deque<Message> history = new ArrayDeque<>();

        Session(String user) {
            this.user = user;
        }

        void add(Message message) {
            history.addLast(message);
            if (!user.endsWith("-bot") && history.size() > KEPT) {
                history.removeFirst();
            }
        }
    }

    static final Map<String, Session> SESSIONS_BY_USER = new ConcurrentHashMap<>();

    static void say(String user, String text, long time) {
        SESSIONS_BY_USER.computeIfAbsent(user, Session::new).add(new Message(text, time));
    }

    static void day(int day) {
        for (int number = 0; number < GREETINGS_A_DAY; number++) {
            String user = "user-" + number % SESSIONS;
            say(user, "Hello, " + day + " " + number, number);
            say("welcome-bot", "Welcome back, " + user + ", it is day " + day, number);
        }
    }

    public static void main(String[] words) {
        Catalog.run(words, ChatService::day);
    }
}
