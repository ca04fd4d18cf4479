package tried;

import hard.Course;
import java.io.IOException;
import java.io.InputStream;
import java.sql.Connection;
import java.sql.Driver;
import java.sql.DriverManager;
import java.sql.DriverPropertyInfo;
import java.sql.SQLException;
import java.util.HashMap;
import java.util.Map;
import java.util.Properties;
import java.util.logging.Logger;

/**
 * Loads a plugin anew each time that its configuration changes. The plugin has a driver, which registers itself when it
 * is loaded, as drivers do; nobody deregisters it, and with it stays the loader of the plugin.
 */
final class PluginService {
    static final int CHANGES_A_DAY = 16 * Course.SCALE;

    /** The plugin's driver, with the texts that the plugin reads when it is loaded. */
    public static final class PluginDriver implements Driver {
        private static final Map<String, String> TEXTS = new HashMap<>();

        static {
            for (int number = 0; number < 900; number++) {
                TEXTS.put("text." + number, "SQL state " + number);
            }
            try {
                DriverManager.registerDriver(new PluginDriver());
            } catch (SQLException fault) {
                throw new ExceptionInInitializerError(fault);
            }
        }

        @Override
        public Connection connect(String url, Properties properties) {
            return null;
        }

        @Override
        public boolean acceptsURL(String url) {
            return url.startsWith("jdbc:plugin:");
        }

        @Override
        public DriverPropertyInfo[] getPropertyInfo(String url, Properties properties) {
            return new DriverPropertyInfo[0];
        }

        @Override
        public int getMajorVersion() {
            return TEXTS.isEmpty() ? 0 : 1;
        }

        @Override
        public int getMinorVersion() {
            return 0;
        }

        @Override
        public boolean jdbcCompliant() {
            return false;
        }

        @Override
        public Logger getParentLogger() {
            return Logger.getGlobal();
        }
    }

    static final class PluginLoader extends ClassLoader {
        PluginLoader() {
            super(PluginService.class.getClassLoader());
        }

        @Override
        protected Class<?> loadClass(String name, boolean resolve) throws ClassNotFoundException {
            if (!name.equals(PluginDriver.class.getName())) {
                return super.loadClass(name, resolve);
            }
            try (InputStream file = getResourceAsStream(name.replace('.', '/') + ".class")) {
                byte[] code = file.readAllBytes();
                return defineClass(name, code, 0, code.length);
            } catch (IOException fault) {
                throw new ClassNotFoundException(name, fault);
            }
        }
    }

    static ClassLoader plugin;

    static void day(int day) throws Exception {
        for (int number = 0; number < CHANGES_A_DAY; number++) {
            plugin = new PluginLoader();
            Class.forName(PluginDriver.class.getName(), true, plugin);
        }
    }

    public static void main(String[] words) {
        Catalog.run(words, PluginService::day);
    }
}
