package full;

import com.google.common.cache.Cache;
import com.google.common.cache.CacheBuilder;

/** Keeps each token in a cache of Guava that has statistics, but no bound. */
final class Tokens {
    static final class Login {
        private final Cache<String, byte[]> tokens = CacheBuilder.newBuilder().recordStats().build();

        void accept(int number) throws Exception {
            tokens.get("token-" + number, () -> new byte[300]);
        }
    }

    public static void main(String[] words) {
        Full.run("login-2", new Login()::accept);
    }
}
