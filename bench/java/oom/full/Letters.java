package full;

import java.util.ArrayList;
import java.util.List;

/** Formats letters by a thread-local scratch pad that is never emptied. */
final class Letters {
    static final class Scratch {
        private final List<char[]> parts = new ArrayList<>();

        void format(int number) {
            parts.add(("letter " + number).toCharArray());
            parts.add(new char[200]);
        }
    }

    static final ThreadLocal<Scratch> SCRATCH = ThreadLocal.withInitial(Scratch::new);

    static void format(int number) {
        SCRATCH.get().format(number);
    }

    public static void main(String[] words) {
        Full.run("formatter", Letters::format);
    }
}
