package load;

import com.github.benmanes.caffeine.cache.Cache;
import com.github.benmanes.caffeine.cache.Caffeine;
import com.github.benmanes.caffeine.cache.LoadingCache;

/**
 * Has two of Caffeine's caches: one of products with a limit, which is warm, and one of tokens without. In the first
 * dump, requests load products again, so that local variables hold the first cache.
 */
final class CaffeineService {
    static final int REQUESTS_A_DAY = 4_000;
    static final int PRODUCTS_AT_MOST = 40_000 * Load.SCALE;

    record Product(int number, String name, byte[] picture) {
    }

    record Token(String user, byte[] signature) {
    }

    static final LoadingCache<Integer, Product> PRODUCTS = Caffeine.newBuilder().maximumSize(PRODUCTS_AT_MOST)
            .executor(Runnable::run).build(CaffeineService::load);
    static final Cache<String, Token> TOKENS = Caffeine.newBuilder().build();

    static Product load(int number) {
        Backend.call();
        return new Product(number, "product " + number, new byte[260]);
    }

    static void serve(int number) {
        TOKENS.get("token " + number, token -> new Token("user " + number % 997, new byte[128]));
        PRODUCTS.get(number % PRODUCTS_AT_MOST);
    }

    static void reload(int number) {
        PRODUCTS.asMap().computeIfPresent(number % PRODUCTS_AT_MOST, (same, old) -> load(same));
    }

    public static void main(String[] words) throws Exception {
        for (int number = 0; number < PRODUCTS_AT_MOST; number++) {
            PRODUCTS.get(number);
        }
        Load.run(words, Load.During.FIRST, REQUESTS_A_DAY, CaffeineService::serve, CaffeineService::reload);
    }
}
