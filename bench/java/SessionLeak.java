import java.io.BufferedReader;
import java.io.IOException;
import java.io.InputStreamReader;
import java.util.ArrayList;
import java.util.List;
import java.util.Map;
import java.util.concurrent.ConcurrentHashMap;

/**
 * A site whose sessions never expire. It works for a day, and a day more for each line of its input, and prints "ready"
 * after each.
 */
public final class SessionLeak {
    static final int VISITS_A_DAY = 10_000;

    static final class Session {
        final String user;
        final List<String> pages = new ArrayList<>();

        Session(String user) {
            this.user = user;
        }
    }

    /** All sessions by their keys. */
    static final class Sessions {
        static final Map<String, Session> BY_KEY = new ConcurrentHashMap<>();

        static Session of(String key) {
            return BY_KEY.computeIfAbsent(key, unused -> new Session("user " + key.hashCode() % 997));
        }
    }

    static int visits;

    static void visit() {
        Session session = Sessions.of("session " + visits++);
        session.pages.add("/index.html");
        session.pages.add("/orders/" + visits % 89);
    }

    static void day() {
        for (int visit = 0; visit < VISITS_A_DAY; visit++) {
            visit();
        }
    }

    public static void main(String[] words) throws IOException {
        BufferedReader input = new BufferedReader(new InputStreamReader(System.in));
        do {
            day();
            System.out.println("ready");
        } while (input.readLine() != null);
    }
}
