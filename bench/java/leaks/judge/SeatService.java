package judge;

import hard.Course;
import it.unimi.dsi.fastutil.longs.Long2ObjectMap;
import it.unimi.dsi.fastutil.longs.Long2ObjectOpenHashMap;
import java.util.ArrayList;
import java.util.List;

/**
 * Holds seats of seventy halls for those who are about to pay, in maps of fastutil by the number of the seat. The hall
 * "open-air" has no numbered seats: a seat is held by the number of the order there, and given free by the number zero.
 */
final class SeatService {
    static final int HALLS = 70;
    static final int ORDERS_A_DAY = 7_000 * Course.SCALE;

    record Hold(String buyer, long until) {
    }

    static final class Hall {
        private final String title;
        private final boolean isNumbered;
        private final Long2ObjectMap<Hold> holds = new Long2ObjectOpenHashMap<>();

        Hall(String title, boolean isNumbered) {
            this.title = title;
            this.isNumbered = isNumbered;
        }

        void hold(long order, int seat) {
            holds.put(isNumbered ? seat : order, new Hold("buyer " + order + " in " + title, order + 900));
        }

        void free(int seat) {
            holds.remove(isNumbered ? seat : 0);
        }
    }

    private final List<Hall> halls = new ArrayList<>();

    private SeatService() {
        for (int number = 0; number < HALLS; number++) {
            halls.add(number == 28 ? new Hall("open-air", false) : new Hall("hall " + number, true));
        }
    }

    private void day(int day) {
        for (int number = 0; number < ORDERS_A_DAY; number++) {
            long order = (long) day * ORDERS_A_DAY + number;
            for (Hall hall : List.of(halls.get(28), halls.get(number % 28))) {
                hall.hold(order, number % 400);
                hall.free(number % 400);
            }
        }
    }

    public static void main(String[] words) {
        Catalog.run(words, new SeatService()::day);
    }
}
