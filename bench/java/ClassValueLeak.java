import java.io.BufferedReader;
import java.io.IOException;
import java.io.InputStreamReader;
import java.util.ArrayList;
import java.util.List;

/**
 * A service that keeps with a class, by a {@link ClassValue}, how long each call took, and never clears it. Only a
 * field of the class object leads there, which a heap dump leaves out: so in a dump all of it is unreachable. It works
 * for a day, and a day more for each line of its input, and prints "ready" after each.
 */
public final class ClassValueLeak {
    static final int CALLS_A_DAY = 10_000;

    static final class Call {
        final long began;
        final long took;

        Call(long began, long took) {
            this.began = began;
            this.took = took;
        }
    }

    static final ClassValue<List<Call>> CALLS = new ClassValue<>() {
        @Override
        protected List<Call> computeValue(Class<?> called) {
            return new ArrayList<>();
        }
    };

    static void day() {
        for (int call = 0; call < CALLS_A_DAY; call++) {
            long began = System.nanoTime();
            CALLS.get(ClassValueLeak.class).add(new Call(began, System.nanoTime() - began));
        }
    }

    public static void main(String[] words) throws IOException {
        BufferedReader input = new BufferedReader(new InputStreamReader(System.in));
        do {
            day();
            System.out.println("ready");
        } while (input.readLine() != null);
    }
}
