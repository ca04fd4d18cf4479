package load;

import org.springframework.context.ApplicationEvent;
import org.springframework.context.ApplicationListener;
import org.springframework.context.support.GenericApplicationContext;

/**
 * Adds each session to a Spring context as a listener, which Spring has no way to remove. In the last dump, an event is
 * published: its listeners are in local variables, and in the cache of the multicaster.
 */
final class SpringService {
    static final int SESSIONS_A_DAY = 4_500;

    static final class Placed extends ApplicationEvent {
        Placed(Object order) {
            super(order);
        }
    }

    static final class Session implements ApplicationListener<Placed> {
        private final byte[] seen = new byte[180];

        @Override
        public void onApplicationEvent(Placed event) {
            Backend.call();
            seen[0]++;
        }
    }

    static final GenericApplicationContext CONTEXT = new GenericApplicationContext();

    static void serve(int number) {
        CONTEXT.addApplicationListener(new Session());
    }

    static void publish(int number) {
        CONTEXT.publishEvent(new Placed("order " + number));
    }

    public static void main(String[] words) throws Exception {
        CONTEXT.refresh();
        Catalog.fill();
        Load.run(words, Load.During.LAST, SESSIONS_A_DAY, SpringService::serve, SpringService::publish);
    }
}
