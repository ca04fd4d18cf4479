import java.util.ArrayList;
import java.util.List;

/** Large arrays among few small objects. Prints `ready`, and then waits for its input. */
public final class LargeArrays {
    private LargeArrays() {}

    /** An array with its name. */
    private static final class Page {
        private final String name;
        private final byte[] content;

        Page(int number) {
            name = "page " + number;
            content = new byte[100_000 + 8 * (number % 977)];
        }
    }

    /** Keeps NUMBER megabytes. */
    public static void main(String[] words) throws Exception {
        List<Page> kept = new ArrayList<>();
        for (int number = 0; number < 10 * Integer.parseInt(words[0]); number++) {
            kept.add(new Page(number));
        }
        System.out.println("ready");
        System.in.read();
        System.out.println(kept.size());
    }
}
