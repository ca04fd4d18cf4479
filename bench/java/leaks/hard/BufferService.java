package hard;

import java.nio.ByteBuffer;
import java.util.ArrayList;
import java.util.HashMap;
import java.util.List;
import java.util.Map;

/**
 * Keeps the buffers of what it received. Their 24 MB are outside the heap: in the heap each has some 200 bytes, and a
 * table of names, which has a limit, grows more.
 */
final class BufferService {
    static final int BUFFERS_A_DAY = 400 * Course.SCALE;

    static final List<ByteBuffer> RECEIVED = new ArrayList<>();
    static final Map<Integer, String> NAMES = new HashMap<>();

    static void day(int day) {
        for (int number = 0; number < BUFFERS_A_DAY; number++) {
            RECEIVED.add(ByteBuffer.allocateDirect(20_000));
            for (int names = 0; names < 5; names++) {
                NAMES.put(NAMES.size(), "customer " + NAMES.size());
            }
        }
    }

    public static void main(String[] words) throws Exception {
        Catalog.fill();
        Course.run(words, BufferService::day);
    }
}
