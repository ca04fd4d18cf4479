package seen;

import hard.Course;
import java.util.prefs.AbstractPreferences;
import java.util.prefs.Preferences;

/**
 * Keeps what visitors chose as preferences of Java, in nodes that a database would store. A node remembers each node
 * below it, for as long as nobody removes that.
 */
final class PreferenceService {
    static final int VISITORS_A_DAY = 4_200 * Course.SCALE;

    static final class Stored extends AbstractPreferences {
        private String chosen;

        Stored(AbstractPreferences parent, String name) {
            super(parent, name);
        }

        @Override
        protected void putSpi(String key, String value) {
            chosen = value;
        }

        @Override
        protected String getSpi(String key) {
            return chosen;
        }

        @Override
        protected void removeSpi(String key) {
            chosen = null;
        }

        @Override
        protected void removeNodeSpi() {
            chosen = null;
        }

        @Override
        protected String[] keysSpi() {
            return new String[0];
        }

        @Override
        protected String[] childrenNamesSpi() {
            return new String[0];
        }

        @Override
        protected AbstractPreferences childSpi(String name) {
            return new Stored(this, name);
        }

        @Override
        protected void syncSpi() {
        }

        @Override
        protected void flushSpi() {
        }
    }

    private final Preferences visitors = new Stored(null, "").node("visitors");

    private void day(int day) {
        for (int number = 0; number < VISITORS_A_DAY; number++) {
            visitors.node("visitor-" + day + "-" + number).put("language", "en");
        }
    }

    public static void main(String[] words) {
        Catalog.run(words, new PreferenceService()::day);
    }
}
