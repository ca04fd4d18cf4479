import java.io.BufferedReader;
import java.io.IOException;
import java.io.InputStream;
import java.io.InputStreamReader;

/**
 * Deploys its application anew at each change, each time by another class loader. The application adds a shutdown hook,
 * which nobody removes: so no loader is ever let go. It works for a day, and a day more for each line of its input, and
 * prints "ready" after each.
 */
public final class RedeployLeak {
    static final int CHANGES_A_DAY = 50;

    /** Loaded by each loader for itself. */
    public static final class Application implements Runnable {
        static final byte[] PICTURES = new byte[20_000];

        @Override
        public void run() {
            Runtime.getRuntime().addShutdownHook(new Thread(() -> System.err.print(PICTURES.length == 0 ? "?" : "")));
        }
    }

    static final class ApplicationLoader extends ClassLoader {
        ApplicationLoader() {
            super(RedeployLeak.class.getClassLoader());
        }

        @Override
        protected Class<?> loadClass(String name, boolean resolve) throws ClassNotFoundException {
            if (!name.equals(Application.class.getName())) {
                return super.loadClass(name, resolve);
            }
            Class<?> loaded = findLoadedClass(name);
            return loaded != null ? loaded : define(name);
        }

        private Class<?> define(String name) throws ClassNotFoundException {
            try (InputStream file = getResourceAsStream(name + ".class")) {
                byte[] code = file.readAllBytes();
                return defineClass(name, code, 0, code.length);
            } catch (IOException fault) {
                throw new ClassNotFoundException(name, fault);
            }
        }
    }

    static void day() throws ReflectiveOperationException {
        for (int change = 0; change < CHANGES_A_DAY; change++) {
            Class<?> application = new ApplicationLoader().loadClass(Application.class.getName());
            ((Runnable) application.getDeclaredConstructor().newInstance()).run();
        }
    }

    public static void main(String[] words) throws IOException, ReflectiveOperationException {
        BufferedReader input = new BufferedReader(new InputStreamReader(System.in));
        do {
            day();
            System.out.println("ready");
        } while (input.readLine() != null);
    }
}
