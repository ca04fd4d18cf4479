package full;

import io.netty.buffer.Unpooled;
import io.netty.channel.embedded.EmbeddedChannel;
import java.util.ArrayList;
import java.util.List;

/** Writes to a hundred peers by channels of Netty. Nothing is flushed to peer-77. */
final class Peers {
    static final class Peer {
        final String name;
        final EmbeddedChannel channel = new EmbeddedChannel();

        Peer(String name) {
            this.name = name;
        }

        void write(boolean flushes) {
            channel.write(Unpooled.wrappedBuffer(new byte[1_000]));
            if (flushes) {
                channel.flush();
                channel.outboundMessages().clear();
            }
        }
    }

    static final List<Peer> ALL = new ArrayList<>();

    static void write(int number) {
        ALL.get(number % 77).write(true);
        ALL.get(77).write(false);
    }

    public static void main(String[] words) {
        for (int number = 0; number < 100; number++) {
            ALL.add(new Peer("peer-" + number));
        }
        Full.run("writer", Peers::write);
    }
}
