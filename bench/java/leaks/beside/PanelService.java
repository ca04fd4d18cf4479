package beside;

import hard.Course;
import java.beans.PropertyChangeEvent;
import java.beans.PropertyChangeListener;
import java.beans.PropertyChangeSupport;

/** Shows panels. Each listens to the settings by an inner class, which keeps its panel when that is closed. */
final class PanelService {
    static final int PANELS_A_DAY = 6_000 * Course.SCALE;

    static final class Settings {
        private final PropertyChangeSupport changes = new PropertyChangeSupport(this);
        private String theme = "light";

        void setTheme(String theme) {
            String before = this.theme;
            this.theme = theme;
            changes.firePropertyChange("theme", before, theme);
        }
    }

    static final class Panel {
        private final int[] colours = new int[40];

        private final class Repaint implements PropertyChangeListener {
            @Override
            public void propertyChange(PropertyChangeEvent event) {
                colours[0]++;
            }
        }

        Panel(Settings settings) {
            settings.changes.addPropertyChangeListener(new Repaint());
        }
    }

    static final Settings SETTINGS = new Settings();

    static void day(int day) {
        for (int number = 0; number < PANELS_A_DAY; number++) {
            new Panel(SETTINGS);
        }
        SETTINGS.setTheme(day % 2 == 0 ? "dark" : "light");
    }

    public static void main(String[] words) {
        Catalog.run(words, PanelService::day);
    }
}
