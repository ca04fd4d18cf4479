import java.io.BufferedReader;
import java.io.IOException;
import java.io.InputStream;
import java.io.InputStreamReader;
import java.util.ArrayList;
import java.util.HashMap;
import java.util.List;
import java.util.Map;

/**
 * Loads its plugin anew at each change, each time by another class loader, and never lets one go: what was started stays
 * in a list. It works for a day, and a day more for each line of its input, and prints "ready" after each.
 */
public final class LoaderLeak {
    static final int CHANGES_A_DAY = 100;

    /** What a plugin has, loaded by each loader for itself. */
    public static final class Settings {
        final Map<String, String> values = new HashMap<>();
    }

    /** Loaded by each loader for itself. */
    public static final class Plugin implements Runnable {
        static final Settings SETTINGS = new Settings();

        @Override
        public void run() {
            SETTINGS.values.put("started", Long.toString(System.nanoTime()));
        }
    }

    static final class PluginLoader extends ClassLoader {
        PluginLoader() {
            super(LoaderLeak.class.getClassLoader());
        }

        @Override
        protected Class<?> loadClass(String name, boolean resolve) throws ClassNotFoundException {
            boolean own = name.equals(Plugin.class.getName()) || name.equals(Settings.class.getName());
            if (!own) {
                return super.loadClass(name, resolve);
            }
            Class<?> loaded = findLoadedClass(name);
            return loaded != null ? loaded : define(name);
        }

        private Class<?> define(String name) throws ClassNotFoundException {
            try (InputStream file = getResourceAsStream(name + ".class")) {
                byte[] code = file.readAllBytes();
                return defineClass(name, code, 0, code.length);
            } catch (IOException fault) {
                throw new ClassNotFoundException(name, fault);
            }
        }
    }

    static final List<Runnable> STARTED = new ArrayList<>();

    static void day() throws ReflectiveOperationException {
        for (int change = 0; change < CHANGES_A_DAY; change++) {
            Class<?> plugin = new PluginLoader().loadClass(Plugin.class.getName());
            Runnable started = (Runnable) plugin.getDeclaredConstructor().newInstance();
            started.run();
            STARTED.add(started);
        }
    }

    public static void main(String[] words) throws IOException, ReflectiveOperationException {
        BufferedReader input = new BufferedReader(new InputStreamReader(System.in));
        do {
            day();
            System.out.println("ready");
        } while (input.readLine() != null);
    }
}
