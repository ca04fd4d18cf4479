package load;

import java.nio.file.Files;
import java.util.Hashtable;
import java.util.Map;
import org.apache.felix.framework.Felix;
import org.osgi.framework.BundleContext;
import org.osgi.framework.ServiceEvent;
import org.osgi.framework.ServiceListener;

/**
 * Lets each session listen to the services of Felix, an OSGi framework, and never stop to. In each dump, a service is
 * registered: its event is with the first listener.
 */
final class BundleService {
    static final int SESSIONS_A_DAY = 1_200;

    static final class Session implements ServiceListener {
        private final byte[] seen = new byte[800];

        @Override
        public void serviceChanged(ServiceEvent event) {
            Backend.call();
            seen[event.getType()]++;
        }
    }

    static BundleContext context;

    static void serve(int number) {
        context.addServiceListener(new Session());
    }

    static void register(int number) {
        context.registerService(Runnable.class.getName(), (Runnable) () -> { }, new Hashtable<>());
    }

    public static void main(String[] words) throws Exception {
        String folder = Files.createTempDirectory("felix").toString();
        Felix framework = new Felix(Map.of("org.osgi.framework.storage", folder));
        framework.start();
        context = framework.getBundleContext();
        Catalog.fill();
        Load.run(words, Load.During.EACH, SESSIONS_A_DAY, BundleService::serve, BundleService::register);
    }
}
