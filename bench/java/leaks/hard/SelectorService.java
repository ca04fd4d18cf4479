package hard;

import java.io.IOException;
import java.nio.channels.Pipe;
import java.nio.channels.SelectionKey;
import java.nio.channels.Selector;

/**
 * Never closes its connections. The selector has each connection's key in three fields, none of which holds it alone,
 * and only the local variables of a thread lead to the selector.
 */
final class SelectorService {
    static final int CONNECTIONS_A_DAY = 70;

    static final class Connection {
        final byte[] in = new byte[8_000 * Course.SCALE], out = new byte[8_000 * Course.SCALE];
    }

    static void serve(Selector selector) {
        try {
            for (;;) {
                selector.select();
                selector.selectedKeys().clear();
                Thread.sleep(10);
            }
        } catch (IOException | InterruptedException ended) {
            Thread.currentThread().interrupt();
        }
    }

    static void day(Selector selector) throws IOException {
        for (int number = 0; number < CONNECTIONS_A_DAY; number++) {
            Pipe pipe = Pipe.open();
            pipe.source().configureBlocking(false);
            pipe.source().register(selector, SelectionKey.OP_READ, new Connection());
        }
    }

    public static void main(String[] words) throws Exception {
        Catalog.fill();
        Selector selector = Selector.open();
        new Thread(() -> serve(selector), "selector").start();
        Course.run(words, day -> day(selector));
    }
}
