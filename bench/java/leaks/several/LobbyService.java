package several;

import hard.Course;
import java.util.ArrayList;
import java.util.List;
import java.util.Map;
import java.util.concurrent.ConcurrentHashMap;
import java.util.concurrent.ScheduledThreadPoolExecutor;
import java.util.concurrent.TimeUnit;

/**
 * Has 300 rooms, each with a log. That of the room "entrance" is not cut. Names of visitors are shared by a table that
 * forgets none, and each visitor is to be greeted again in a month, by a task of its own.
 */
final class LobbyService {
    static final int ROOMS = 300;
    static final int VISITS_A_DAY = 3_200 * Course.SCALE;

    record Entry(String visitor, byte[] text) {
    }

    static final class Room {
        private final String name;
        private final List<Entry> log = new ArrayList<>();

        Room(String name) {
            this.name = name;
        }
    }

    static final class Names {
        private static final Map<String, String> POOL = new ConcurrentHashMap<>();

        static String shared(String name) {
            String known = POOL.putIfAbsent(name, name);
            return known == null ? name : known;
        }
    }

    private final List<Room> rooms = new ArrayList<>();
    private final ScheduledThreadPoolExecutor greeter = new ScheduledThreadPoolExecutor(1);
    private long greeted;

    private LobbyService() {
        for (int number = 0; number < ROOMS; number++) {
            rooms.add(new Room(number == 0 ? "entrance" : "room-" + number));
        }
    }

    private void day(int day) {
        for (int number = 0; number < VISITS_A_DAY; number++) {
            String guest = Names.shared("guest " + number % 50);
            rooms.get(0).log.add(new Entry(guest, new byte[190]));
            rooms.get(1 + number % 299).log.add(new Entry(guest, new byte[190]));
            Names.shared("visitor " + day + " with the number " + number);
            if (number % 2 == 0) {
                long points = number;
                greeter.schedule(() -> greeted += points, 30, TimeUnit.DAYS);
            }
        }
        rooms.subList(1, ROOMS).forEach(room -> room.log.clear());
    }

    public static void main(String[] words) {
        Catalog.run(words, new LobbyService()::day);
    }
}
