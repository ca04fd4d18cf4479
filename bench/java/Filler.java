import java.io.IOException;
import java.lang.ref.SoftReference;
import java.lang.ref.WeakReference;
import java.util.ArrayDeque;
import java.util.ArrayList;
import java.util.EnumMap;
import java.util.HashMap;
import java.util.LinkedHashMap;
import java.util.LinkedList;
import java.util.List;
import java.util.Map;
import java.util.TreeMap;
import java.util.concurrent.ConcurrentHashMap;
import java.util.function.Supplier;

/**
 * Fills its heap with objects of many kinds, prints "ready" and waits until its standard input ends.
 *
 * <p>Usage: {@code java Filler MEGABYTES}: about how large a live dump is to be. A fifth as much again is garbage.
 */
public final class Filler {
    enum Colour { RED, GREEN, BLUE }

    record Point(int x, int y) { }

    interface Named {
        String name();
    }

    /** A class without instances: it is loaded for its array and never linked. */
    static final class NeverMade { }

    /** A static field and an instance field of each type. */
    static class Base {
        static boolean someBoolean = true;
        static char someChar = 'c';
        static float someFloat = 1.5f;
        static double someDouble = 2.5;
        static byte someByte = 3;
        static short someShort = 4;
        static int someInt = 5;
        static long someLong = 6;
        static Object someObject = new int[] {7};

        boolean ownBoolean = true;
        char ownChar = 'd';
        float ownFloat = 1.25f;
        double ownDouble = 2.25;
        byte ownByte = 8;
        short ownShort = 9;
        int ownInt;
        long ownLong;
        Object ownObject;
    }

    static class Middle extends Base { }

    static final class Derived extends Middle implements Named {
        final Derived before;
        final String text;

        Derived(Derived before, int number) {
            this.before = before;
            this.text = "derived " + number;
            this.ownInt = number;
            this.ownObject = this;
        }

        @Override
        public String name() {
            return text;
        }
    }

    /** Each round adds about 120 kilobytes to a live dump. */
    static final class Round {
        static final int ENTRIES = 150;

        final Map<String, Point> points = new HashMap<>();
        final Map<Integer, String> sorted = new TreeMap<>();
        final Map<String, List<Long>> lists = new LinkedHashMap<>();
        final Map<Colour, int[][]> tables = new EnumMap<>(Colour.class);
        final LinkedList<Object> linked = new LinkedList<>();
        final ArrayDeque<Object> queue = new ArrayDeque<>();
        final Object[] arrays;
        final Supplier<String> lambda;
        Derived last;

        Round(int number) {
            for (int entry = 0; entry < ENTRIES; entry++) {
                int key = number * ENTRIES + entry;
                points.put("point " + key, new Point(key, -key));
                sorted.put(key * 7919, Integer.toHexString(key));
                lists.computeIfAbsent("list " + key % 10, name -> new ArrayList<>()).add((long) key << 20);
                linked.add(new StringBuilder("builder ").append(key));
                queue.add(entry % 2 == 0 ? (Object) (key * 0.5) : new Object[] {key, null, this});
                last = new Derived(last, key);
            }
            for (Colour colour : Colour.values()) {
                tables.put(colour, new int[3 + number % 5][17]);
            }
            arrays = new Object[] {
                new boolean[number % 100], new char[number % 300], new float[number % 300], new double[number % 300],
                new byte[number % 5000], new short[number % 300], new int[number % 300], new long[number % 300],
                new String[number % 50], new Point[2][3], new NeverMade[1 + number % 3], new NeverMade[1][2][],
            };
            lambda = () -> "round " + number;
        }
    }

    static final Map<Integer, Object> BY_NUMBER = new ConcurrentHashMap<>();
    static final List<Round> KEPT = new ArrayList<>();
    static final ThreadLocal<byte[]> LOCAL = ThreadLocal.withInitial(() -> new byte[100]);
    static Object chain;

    /** A list so long that a recursive marker would overflow its stack. */
    static Object chainOf(int length) {
        Object[] last = null;
        for (int step = 0; step < length; step++) {
            last = new Object[] {last};
        }
        return last;
    }

    static void startSleeper(int number, Object monitor) {
        Object[] onItsStack = {"sleeper " + number, LOCAL.get()};
        Thread sleeper = new Thread(() -> {
            LOCAL.set(new byte[number]);
            synchronized (monitor) {
                try {
                    monitor.wait();
                } catch (InterruptedException ended) {
                    onItsStack[0] = null;
                }
            }
        }, "sleeper " + number);
        sleeper.setDaemon(true);
        sleeper.start();
    }

    static void fill(int rounds) {
        for (int number = 0; number < rounds; number++) {
            Round round = new Round(number);
            KEPT.add(round);
            BY_NUMBER.put(number, number % 2 == 0 ? new WeakReference<>(round) : new SoftReference<>(new Point(number, 0)));
            if (number % 5 == 0) {
                BY_NUMBER.put(-1, new Round(number));
            }
        }
        chain = chainOf(rounds * 100);
        for (int number = 0; number < 3; number++) {
            startSleeper(number, KEPT);
        }
    }

    public static void main(String[] words) throws IOException {
        fill(Integer.parseInt(words[0]) * 8);
        System.out.println("ready");
        while (System.in.read() >= 0) {
            LOCAL.get();
        }
    }
}
