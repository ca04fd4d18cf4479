package tried;

import hard.Course;
import java.lang.ref.Cleaner;

/** Frees what a handle has by a cleaner. Its action is a method of the handle itself, so no handle is ever freed. */
final class HandleService {
    static final int HANDLES_A_DAY = 6_000 * Course.SCALE;
    static final Cleaner CLEANER = Cleaner.create();

    static final class Handle {
        private final byte[] state = new byte[140];

        Handle() {
            CLEANER.register(this, this::free);
        }

        void use(int number) {
            state[number % state.length]++;
        }

        private void free() {
            state[0] = 0;
        }
    }

    static void day(int day) {
        for (int number = 0; number < HANDLES_A_DAY; number++) {
            new Handle().use(number);
        }
    }

    public static void main(String[] words) {
        Catalog.run(words, HandleService::day);
    }
}
