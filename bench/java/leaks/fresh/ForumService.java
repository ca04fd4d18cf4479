package fresh;

import hard.Course;
import java.util.ArrayList;
import java.util.HashMap;
import java.util.List;
import java.util.Map;

/**
 * Has sixty rooms with the posts of their visitors. A moderated room has its posts by their numbers, too. Both are cut
 * each evening, but not those of the room "garden-help".
 */
final class ForumService {
    static final int ROOMS = 60;
    static final int POSTS_A_DAY = 6_500 * Course.SCALE;

    record Post(long number, String author, byte[] text) {
    }

    static class Room {
        private final String name;
        private final List<Post> posts = new ArrayList<>();

        Room(String name) {
            this.name = name;
        }

        void post(Post post) {
            posts.add(post);
        }

        void cut() {
            posts.clear();
        }
    }

    static final class ModeratedRoom extends Room {
        private final Map<Long, Post> byNumber = new HashMap<>();

        ModeratedRoom(String name) {
            super(name);
        }

        @Override
        void post(Post post) {
            super.post(post);
            byNumber.put(post.number, post);
        }

        @Override
        void cut() {
            super.cut();
            byNumber.clear();
        }
    }

    private final List<Room> rooms = new ArrayList<>();

    private ForumService() {
        for (int number = 0; number < ROOMS; number++) {
            rooms.add(number % 2 == 0 ? new Room("room-" + number)
                    : new ModeratedRoom(number == 33 ? "garden-help" : "room-" + number));
        }
    }

    private void day(int day) {
        for (int number = 0; number < POSTS_A_DAY; number++) {
            long id = day * 1_000_000L + number;
            rooms.get(33).post(new Post(id, "visitor " + number % 900, new byte[70]));
            rooms.get(number % 33).post(new Post(id, "visitor " + number % 900, new byte[70]));
        }
        rooms.subList(0, 33).forEach(Room::cut);
        rooms.subList(34, ROOMS).forEach(Room::cut);
    }

    public static void main(String[] words) {
        Catalog.run(words, new ForumService()::day);
    }
}
