package tried;

import hard.Course;
import io.netty.channel.embedded.EmbeddedChannel;
import java.util.ArrayList;
import java.util.List;

/**
 * Sends its requests by sixty connections of Netty. Each request listens to the close of its connection, and does not
 * stop when it is served. Connections are opened anew each hour, but that to the bank stays open.
 */
final class CloseService {
    static final int CONNECTIONS = 60;
    static final int HOURS = 24;
    static final int REQUESTS_AN_HOUR = 500 * Course.SCALE;

    static final class Request {
        private final byte[] content = new byte[110];
        private boolean failed;

        void fail() {
            failed = content.length > 0;
        }
    }

    static final class Connection {
        private final String peer;
        private EmbeddedChannel channel = new EmbeddedChannel();

        Connection(String peer) {
            this.peer = peer;
        }

        void send(Request request) {
            channel.closeFuture().addListener(closed -> request.fail());
        }

        void reopen() {
            channel.close();
            channel = new EmbeddedChannel();
        }
    }

    static final List<Connection> CONNECTIONS_BY_NUMBER = new ArrayList<>();

    static void hour() {
        for (int number = 0; number < REQUESTS_AN_HOUR; number++) {
            CONNECTIONS_BY_NUMBER.get(0).send(new Request());
            CONNECTIONS_BY_NUMBER.get(1 + number % (CONNECTIONS - 1)).send(new Request());
        }
    }

    static void day(int day) {
        for (int hour = 0; hour < HOURS; hour++) {
            CONNECTIONS_BY_NUMBER.stream().skip(1).forEach(Connection::reopen);
            hour();
        }
    }

    public static void main(String[] words) {
        for (int number = 0; number < CONNECTIONS; number++) {
            CONNECTIONS_BY_NUMBER.add(new Connection(number == 0 ? "bank.example.org" : "peer-" + number));
        }
        Catalog.run(words, CloseService::day);
    }
}
