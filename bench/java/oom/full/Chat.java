package full;

import java.util.ArrayDeque;
import java.util.Deque;
import java.util.Map;
import java.util.concurrent.ConcurrentHashMap;

/** Has 3,000 sessions with their last messages. Nobody cuts the history of the bot that greets users. */
final class Chat {
    static final int SESSIONS = 3_000;
    static final int KEPT = 4;

    record Message(String text, byte[] picture) {
    }

    static final class Session {
        final String user;
        final Deque<Message> history = new ArrayDeque<>();

        Session(String user) {
            this.user = user;
        }

        void add(Message message) {
            history.addLast(message);
            if (!user.endsWith("-bot") && history.size() > KEPT) {
                history.removeFirst();
            }
        }
    }

    static final Map<String, Session> SESSIONS_BY_USER = new ConcurrentHashMap<>();

    static void say(String user, String text) {
        SESSIONS_BY_USER.computeIfAbsent(user, Session::new).add(new Message(text, new byte[600]));
    }

    static void serve(int number) {
        String user = "user-" + number % SESSIONS;
        say(user, "Hello " + number);
        say("welcome-bot", "Welcome back, " + user);
    }

    public static void main(String[] words) {
        Full.run("chat-3", Chat::serve);
    }
}
