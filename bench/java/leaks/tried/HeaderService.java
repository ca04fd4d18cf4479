package tried;

import hard.Course;
import java.nio.ByteBuffer;
import java.util.concurrent.ConcurrentHashMap;
import java.util.concurrent.ConcurrentMap;

/** Keeps the header of each message, to find it again. A header is a slice of the buffer that had the whole message. */
final class HeaderService {
    static final int MESSAGES_A_DAY = 2_000 * Course.SCALE;

    static final class Inbound {
        private final ConcurrentMap<Long, ByteBuffer> headers = new ConcurrentHashMap<>();

        void receive(long number, ByteBuffer message) {
            headers.put(number, message.slice(0, 16));
        }
    }

    static final class Server {
        private final Inbound inbound = new Inbound();
        private long served;

        void serve() {
            served++;
            inbound.receive(served, ByteBuffer.allocate(700).putLong(0, served));
        }
    }

    static final Server SERVER = new Server();

    static void day(int day) {
        for (int number = 0; number < MESSAGES_A_DAY; number++) {
            SERVER.serve();
        }
    }

    public static void main(String[] words) {
        Catalog.run(words, HeaderService::day);
    }
}
