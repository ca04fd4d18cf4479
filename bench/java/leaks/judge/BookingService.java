package judge;

import hard.Course;
import java.util.ArrayList;
import java.util.List;

/**
 * Has 120 rooms, each with its bookings in a tree by their time. A room forgets them in the evening. The lobby, which
 * is open at night, has no evening.
 */
final class BookingService {
    static final int ROOMS = 120;
    static final int BOOKINGS_A_DAY = 14_000 * Course.SCALE;

    static final class Booking {
        private final long time;
        private final String guest;
        private Booking earlier;
        private Booking later;

        Booking(long time, String guest) {
            this.time = time;
            this.guest = guest;
        }
    }

    static final class Room {
        private final String name;
        private Booking root;

        Room(String name) {
            this.name = name;
        }

        void book(Booking booking) {
            if (root == null) {
                root = booking;
                return;
            }
            Booking above = root;
            while (true) {
                Booking next = booking.time < above.time ? above.earlier : above.later;
                if (next == null) {
                    break;
                }
                above = next;
            }
            if (booking.time < above.time) {
                above.earlier = booking;
            } else {
                above.later = booking;
            }
        }

        void evening() {
            root = null;
        }

        @Override
        public String toString() {
            return name + (root == null ? " is free" : " is booked by " + root.guest);
        }
    }

    private final List<Room> rooms = new ArrayList<>();

    private BookingService() {
        for (int number = 0; number < ROOMS; number++) {
            rooms.add(new Room(number == 3 ? "lobby" : "room " + number));
        }
    }

    private void day(int day) {
        for (int number = 0; number < BOOKINGS_A_DAY; number++) {
            long time = (number * 7_919L + day) % 86_400;
            String guest = "guest " + day + "/" + number;
            rooms.get(3).book(new Booking(time, guest));
            rooms.get(4 + number % (ROOMS - 4)).book(new Booking(time, guest));
        }
        rooms.stream().filter(room -> !room.name.equals("lobby")).forEach(Room::evening);
    }

    public static void main(String[] words) {
        Catalog.run(words, new BookingService()::day);
    }
}
