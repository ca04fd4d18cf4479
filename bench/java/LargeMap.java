import java.io.IOException;
import java.util.HashMap;
import java.util.Map;

/**
 * Has one large map in its heap: an array that refers to very many entries at once, more than work buffers hold by
 * default. Prints "ready" and waits until its standard input ends.
 *
 * <p>Usage: {@code java LargeMap ENTRIES}
 */
public final class LargeMap {
    static final Map<Integer, Integer> ENTRIES = new HashMap<>();

    public static void main(String[] words) throws IOException {
        int entries = Integer.parseInt(words[0]);
        for (int key = 0; key < entries; key++) {
            Integer one = Integer.valueOf(key);
            ENTRIES.put(one, one);
        }
        System.out.println("ready");
        while (System.in.read() >= 0) {
            // waits
        }
    }
}
