package seen;

import hard.Course;
import java.util.HashMap;
import java.util.Map;
import org.springframework.messaging.Message;
import org.springframework.messaging.MessageHeaders;
import org.springframework.messaging.simp.SimpMessageHeaderAccessor;
import org.springframework.messaging.simp.SimpMessageType;
import org.springframework.messaging.simp.broker.DefaultSubscriptionRegistry;
import org.springframework.messaging.support.GenericMessage;

/**
 * Notes in Spring's registry to what 600 sessions of a broker subscribe. A session unsubscribes from an order that it
 * has shown, except for that of the display "kiosk-lobby".
 */
final class StompService {
    static final int SESSIONS = 600;
    static final int ORDERS_A_DAY = 5_000 * Course.SCALE;

    private final DefaultSubscriptionRegistry registry = new DefaultSubscriptionRegistry();

    private static Message<String> message(SimpMessageType type, String session, String order) {
        Map<String, Object> headers = new HashMap<>();
        headers.put(SimpMessageHeaderAccessor.MESSAGE_TYPE_HEADER, type);
        headers.put(SimpMessageHeaderAccessor.SESSION_ID_HEADER, session);
        headers.put(SimpMessageHeaderAccessor.SUBSCRIPTION_ID_HEADER, "shown-" + order);
        headers.put(SimpMessageHeaderAccessor.DESTINATION_HEADER, "/topic/orders/" + order);
        return new GenericMessage<>("", new MessageHeaders(headers));
    }

    private void show(String session, String order, boolean isLeft) {
        registry.registerSubscription(message(SimpMessageType.SUBSCRIBE, session, order));
        if (isLeft) {
            registry.unregisterSubscription(message(SimpMessageType.UNSUBSCRIBE, session, order));
        }
    }

    private void day(int day) {
        for (int number = 0; number < SESSIONS - 1; number++) {
            registry.registerSubscription(message(SimpMessageType.SUBSCRIBE, "session-" + number, "all"));
        }
        for (int number = 0; number < ORDERS_A_DAY; number++) {
            String order = day + "-" + number;
            show("kiosk-lobby", order, false);
            show("session-" + number % (SESSIONS - 1), order, true);
        }
    }

    public static void main(String[] words) {
        Catalog.run(words, new StompService()::day);
    }
}
