import java.util.ArrayList;
import java.util.List;

/**
 * Classes whose superclasses have small fields. Up to JDK 14 the fields of a class begin where a reference could, and
 * what is empty before them stays empty. Prints `ready`, and then waits for its input.
 */
public final class Hierarchies {
    private Hierarchies() {}

    private static class Flag {
        boolean one;
    }

    private static class TwoFlags extends Flag {
        boolean two;
    }

    private static class ThreeFlags extends TwoFlags {
        boolean three;
    }

    private static class FourFlags extends ThreeFlags {
        boolean four;
    }

    private static final class FiveFlags extends FourFlags {
        boolean five;
    }

    private static class Count {
        int count;
        Object first;
        Object second;
    }

    private static class Time extends Count {
        long time;
        byte kind;
    }

    private static class Span extends Time {
        short more;
        Object from;
        Object to;
        long length;
    }

    private static final class Named extends Span {
        char letter;
        double share;
    }

    private static class Pair {
        Object left;
        Object right;
        long number;
    }

    private static final class Link extends Pair {
        int count;
    }

    private static final class Rare extends FourFlags {
        long number;
    }

    /** Keeps about NUMBER megabytes, and three objects of a class of which there are no more. */
    public static void main(String[] words) throws Exception {
        int count = Integer.parseInt(words[0]) * 2_600;
        List<Object> kept = new ArrayList<>(13 * count);
        for (int number = 0; number < count; number++) {
            kept.add(new Flag());
            kept.add(new TwoFlags());
            kept.add(new ThreeFlags());
            kept.add(new FourFlags());
            kept.add(new FiveFlags());
            kept.add(new byte[number % 40]);
            kept.add(new Count());
            kept.add(new Time());
            kept.add(new Span());
            kept.add(new Named());
            kept.add(new Pair());
            kept.add(new Link());
            if (number % (count / 3) == 7) {
                kept.add(new Rare());
            }
        }
        System.out.println("ready");
        System.in.read();
        System.out.println(kept.size());
    }
}
