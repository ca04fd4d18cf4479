package fresh;

import hard.Course;
import java.util.ArrayList;
import java.util.LinkedHashSet;
import java.util.List;
import java.util.Set;

/**
 * Has 3,000 sessions, each with the listeners of its widgets. A widget removes its listener when it is closed. Those
 * that the session "wallboard" shows take their method once more to do so, which is another object, so it stays.
 */
final class TickerService {
    static final int SESSIONS = 3_000;
    static final int WIDGETS_A_DAY = 5_500 * Course.SCALE;

    static final class Session {
        private final String user;
        private final Set<Runnable> listeners = new LinkedHashSet<>();

        Session(String user) {
            this.user = user;
        }

        void change() {
            listeners.forEach(Runnable::run);
        }
    }

    static final class Widget {
        private final String title;
        private final int[] points = new int[24];
        private int shown;

        Widget(String title) {
            this.title = title;
        }

        void show() {
            points[shown++ % points.length]++;
        }

        Runnable open(Session session) {
            Runnable listener = this::show;
            session.listeners.add(listener);
            return listener;
        }

        void close(Session session) {
            session.listeners.remove((Runnable) this::show);
        }
    }

    private final List<Session> sessions = new ArrayList<>();

    private TickerService() {
        for (int number = 0; number < SESSIONS; number++) {
            Session session = new Session(number == 1_822 ? "wallboard" : "user-" + number);
            sessions.add(session);
            new Widget("news").open(session);
        }
    }

    private void day(int day) {
        Session wallboard = sessions.get(1_822);
        for (int number = 0; number < WIDGETS_A_DAY; number++) {
            Widget pinned = new Widget("quote " + day + "-" + number);
            pinned.open(wallboard);
            pinned.close(wallboard);
            Session session = sessions.get(number % 1_800);
            Runnable listener = new Widget("quote " + number).open(session);
            session.change();
            session.listeners.remove(listener);
        }
        wallboard.change();
    }

    public static void main(String[] words) {
        Catalog.run(words, new TickerService()::day);
    }
}
