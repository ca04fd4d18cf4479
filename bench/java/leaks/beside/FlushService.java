package beside;

import hard.Course;
import io.netty.buffer.Unpooled;
import io.netty.channel.embedded.EmbeddedChannel;
import java.util.ArrayList;
import java.util.List;

/** Writes to a hundred peers by channels of Netty. Nothing is flushed to peer-77: it is paused. */
final class FlushService {
    static final int PEERS = 100;
    static final int WRITES_A_DAY = 4_500 * Course.SCALE;

    static final class Peer {
        final String name;
        final EmbeddedChannel channel = new EmbeddedChannel();

        Peer(String name) {
            this.name = name;
        }

        void write(boolean flushes) {
            channel.write(Unpooled.wrappedBuffer(new byte[150]));
            if (flushes) {
                channel.flush();
                channel.outboundMessages().clear();
            }
        }
    }

    static final List<Peer> PEERS_BY_NUMBER = new ArrayList<>();

    static void day(int day) {
        for (int number = 0; number < WRITES_A_DAY; number++) {
            PEERS_BY_NUMBER.get(number % 77).write(true);
            PEERS_BY_NUMBER.get(77).write(false);
        }
    }

    public static void main(String[] words) {
        for (int number = 0; number < PEERS; number++) {
            PEERS_BY_NUMBER.add(new Peer("peer-" + number));
        }
        Catalog.run(words, FlushService::day);
    }
}
