package shop;

import java.util.ArrayList;
import java.util.List;

/** Loads its database driver anew at each change, by another class loader. A registry keeps all the drivers. */
final class DriverService {
    static final int CHANGES_A_DAY = 90 * Service.SCALE;

    /** Loaded by each loader for itself. */
    public static final class Driver {
        static final long[] STATEMENTS = new long[1_000];
    }

    static final class Registry {
        static final List<Object> DRIVERS = new ArrayList<>();
    }

    static void day() throws ReflectiveOperationException {
        for (int change = 0; change < CHANGES_A_DAY; change++) {
            Registry.DRIVERS.add(OwnLoader.instanceOf(Driver.class));
        }
    }

    public static void main(String[] words) throws Exception {
        Service.run(words, DriverService::day);
    }
}
