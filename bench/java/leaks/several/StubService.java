package several;

import hard.Course;
import java.io.IOException;
import java.io.InputStream;
import java.lang.invoke.MethodHandles;
import java.nio.charset.StandardCharsets;
import java.util.Arrays;

/**
 * Makes a class for each customer's view, as libraries that generate classes do: its name ends with eight hexadecimal
 * digits, and it has a static field with what its methods call. No class is ever unloaded.
 */
final class StubService {
    static final int VIEWS_A_DAY = 600 * Course.SCALE;

    private final byte[] code;
    private long shown;

    private StubService() throws IOException {
        try (InputStream file = View$$00000000.class.getResourceAsStream("View$$00000000.class")) {
            code = file.readAllBytes();
        }
    }

    /** Returns the code of the class `View$$00000000` with the digits of this number in its name. */
    private byte[] named(int number) {
        byte[] found = code.clone(), digits = String.format("%08x", number).getBytes(StandardCharsets.US_ASCII);
        byte[] zeros = "$$00000000".getBytes(StandardCharsets.US_ASCII);
        for (int at = 0; at + zeros.length <= found.length; at++) {
            if (Arrays.equals(found, at, at + zeros.length, zeros, 0, zeros.length)) {
                System.arraycopy(digits, 0, found, at + 2, digits.length);
            }
        }
        return found;
    }

    private void day(int day) throws ReflectiveOperationException {
        for (int number = 0; number < VIEWS_A_DAY; number++) {
            int digits = (day * VIEWS_A_DAY + number + 1) * 0x9E3779B1; // odd: no two are the same, and none is 0
            Class<?> view = MethodHandles.lookup().defineClass(named(digits));
            shown += ((Runnable[]) view.getDeclaredMethod("callbacks").invoke(null)).length;
        }
    }

    public static void main(String[] words) throws IOException {
        Catalog.run(words, new StubService()::day);
    }
}
