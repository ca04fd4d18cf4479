package fresh;

import hard.Course;
import java.util.ArrayList;
import java.util.HashMap;
import java.util.List;
import java.util.Map;

/**
 * Notes each parcel in a ledger, which is static, and in one of four depots, by its code. A parcel that was delivered
 * leaves neither of them.
 */
final class ParcelService {
    static final int DEPOTS = 4;
    static final int PARCELS_A_DAY = 6_200 * Course.SCALE;

    static final class Parcel {
        private final String code;
        private final byte[] label = new byte[100];
        private boolean isDelivered;

        Parcel(String code) {
            this.code = code;
        }
    }

    static final class Ledger {
        private static final List<Parcel> ENTRIES = new ArrayList<>();

        static void enter(Parcel parcel) {
            ENTRIES.add(parcel);
        }
    }

    static final class Depot {
        private static final Depot[] ALL = new Depot[DEPOTS];

        private final Map<String, Parcel> byCode = new HashMap<>();

        void receive(Parcel parcel) {
            byCode.put(parcel.code, parcel);
        }

        void deliver(String code) {
            byCode.get(code).isDelivered = true;
        }
    }

    private static void day(int day) {
        for (int number = 0; number < PARCELS_A_DAY; number++) {
            Parcel parcel = new Parcel("parcel " + day + "-" + number);
            Depot depot = Depot.ALL[number % DEPOTS];
            Ledger.enter(parcel);
            depot.receive(parcel);
            depot.deliver(parcel.code);
        }
    }

    public static void main(String[] words) {
        for (int number = 0; number < DEPOTS; number++) {
            Depot.ALL[number] = new Depot();
        }
        Catalog.run(words, ParcelService::day);
    }
}
