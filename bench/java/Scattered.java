import java.io.IOException;
import java.util.HashMap;
import java.util.Map;
import java.util.Random;

/**
 * Fills its heap with objects that refer to one another at random, so that each reference leads to another place of the
 * heap and of its dump. Prints "ready" and waits until its standard input ends.
 *
 * <p>Usage: {@code java Scattered NODES}: one list of NODES nodes, as many values, and a map of half as many entries.
 */
public final class Scattered {
    /** A node of the list, with a reference to a node at random. */
    static final class Node {
        Node next;
        Node any;
        Value value;
    }

    static final class Value {
        long number;
        Node owner;
    }

    static final Random RANDOM = new Random(20261123);
    static final Map<Long, Node> BY_NUMBER = new HashMap<>();
    static Node first;

    /** All numbers below the count, in a random order. */
    static int[] shuffled(int count) {
        int[] order = new int[count];
        for (int at = 0; at < count; at++) {
            int other = RANDOM.nextInt(at + 1);
            order[at] = order[other];
            order[other] = at;
        }
        return order;
    }

    /**
     * Makes all objects in one order and joins them in another. The collector moves young objects into the order in
     * which it finds them, so all nodes and values are old before they are joined. The map's entries come last: they
     * stay in their order only if the young generation has room for all of them.
     */
    static void fill(int count) {
        Node[] nodes = new Node[count];
        Value[] values = new Value[count];
        Long[] keys = new Long[count / 2];
        for (int number = 0; number < count; number++) {
            nodes[number] = new Node();
            values[number] = new Value();
            values[number].number = number;
        }
        for (int entry = 0; entry < keys.length; entry++) {
            keys[entry] = RANDOM.nextLong();
        }
        System.gc();
        int[] order = shuffled(count);
        int[] valueOrder = shuffled(count);
        for (int at = 0; at < count; at++) {
            Node node = nodes[order[at]];
            node.next = at + 1 < count ? nodes[order[at + 1]] : null;
            node.any = nodes[RANDOM.nextInt(count)];
            node.value = values[valueOrder[at]];
            node.value.owner = nodes[RANDOM.nextInt(count)];
        }
        first = nodes[order[0]];
        for (Long key : keys) {
            BY_NUMBER.put(key, nodes[RANDOM.nextInt(count)]);
        }
    }

    public static void main(String[] words) throws IOException {
        fill(Integer.parseInt(words[0]));
        System.out.println("ready");
        while (System.in.read() >= 0) {
            first.any = first;
        }
    }
}
