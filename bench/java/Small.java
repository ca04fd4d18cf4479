import java.io.IOException;
import java.lang.ref.SoftReference;
import java.lang.ref.WeakReference;
import java.util.ArrayList;
import java.util.HashMap;
import java.util.List;
import java.util.Map;

/**
 * Has a small heap with objects of many kinds, for dumps that are kept in the repository: few classes are loaded, since
 * these make up most of a small dump. Prints "ready" and waits until its standard input ends.
 */
public final class Small {
    static final int ROUNDS = 8;

    enum Colour { RED, GREEN, BLUE }

    /** A class without instances: it is loaded for its array and never linked. */
    static final class NeverMade { }

    /** A static field and an instance field of each type. */
    static class Base {
        static boolean someBoolean = true;
        static char someChar = 'c';
        static float someFloat = 1.5f;
        static double someDouble = 2.5;
        static byte someByte = 3;
        static short someShort = 4;
        static int someInt = 5;
        static long someLong = 6;
        static Object someObject = new int[] {7};

        boolean ownBoolean = true;
        char ownChar = 'd';
        float ownFloat = 1.25f;
        double ownDouble = 2.25;
        byte ownByte = 8;
        short ownShort = 9;
        int ownInt;
        long ownLong;
        Object ownObject;
    }

    static class Middle extends Base { }

    /** An element of a list. Its name has letters beyond ASCII. */
    static final class Größe extends Middle {
        final Größe before;

        Größe(Größe before, int number) {
            this.before = before;
            ownInt = number;
            ownObject = this;
        }
    }

    static final class Round {
        final Map<Integer, Colour> colours = new HashMap<>();
        final Object[] arrays;
        final Runnable lambda;

        Round(int number) {
            for (Colour colour : Colour.values()) {
                colours.put(1000 * number + colour.ordinal(), colour);
            }
            arrays = new Object[] {
                new boolean[number], new char[number], new float[number], new double[number], new byte[number],
                new short[number], new int[number], new long[number], new String[number], new int[2][number],
                new NeverMade[1 + number], new NeverMade[1][2][],
            };
            lambda = () -> colours.remove(number);
        }
    }

    static final List<Object> KEPT = new ArrayList<>();
    static final ThreadLocal<byte[]> LOCAL = new ThreadLocal<>();
    static Größe last;

    static void fill() {
        for (int number = 0; number < ROUNDS; number++) {
            Round round = new Round(number);
            KEPT.add(round);
            KEPT.add(number % 2 == 0 ? new WeakReference<>(round) : new SoftReference<>(new Object()));
            last = new Größe(last, number);
        }
        LOCAL.set(new byte[100]);
    }

    public static void main(String[] words) throws IOException {
        fill();
        System.out.println("ready");
        while (System.in.read() >= 0) {
            LOCAL.get();
        }
    }
}
