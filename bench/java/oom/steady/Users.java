package steady;

import com.github.benmanes.caffeine.cache.Cache;
import com.github.benmanes.caffeine.cache.Caffeine;

/** Has 50,000 users in a cache of Caffeine with a bound. */
final class Users {
    record User(String name, byte[] picture) {
    }

    static final Cache<Integer, User> USERS = Caffeine.newBuilder().maximumSize(50_000).executor(Runnable::run).build();

    public static void main(String[] words) {
        Steady.run(words, number -> USERS.get(number % 70_000, key -> new User("user " + key, new byte[280])));
    }
}
