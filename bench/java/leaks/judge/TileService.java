package judge;

import hard.Course;
import org.apache.commons.configuration2.BaseConfiguration;
import org.apache.commons.configuration2.event.ConfigurationEvent;
import org.apache.commons.configuration2.event.EventListener;

/**
 * Has its settings in a configuration of Commons Configuration. Each tile that is shown listens to it, to change its
 * colours, and goes on when its page is left.
 */
final class TileService {
    static final int TILES_A_DAY = 1_700 * Course.SCALE;

    static final class Tile implements EventListener<ConfigurationEvent> {
        private final byte[] drawn = new byte[800];
        private Object colour;

        @Override
        public void onEvent(ConfigurationEvent event) {
            colour = event.getPropertyValue();
        }
    }

    private final BaseConfiguration settings = new BaseConfiguration();

    private void day(int day) {
        for (int number = 0; number < TILES_A_DAY; number++) {
            settings.addEventListener(ConfigurationEvent.SET_PROPERTY, new Tile());
        }
        settings.setProperty("colour", "colour of day " + day);
    }

    public static void main(String[] words) {
        Catalog.run(words, new TileService()::day);
    }
}
