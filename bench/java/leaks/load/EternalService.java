package load;

import net.sf.ehcache.Cache;
import net.sf.ehcache.CacheManager;
import net.sf.ehcache.Element;
import net.sf.ehcache.config.CacheConfiguration;
import net.sf.ehcache.config.Configuration;

/**
 * Has three of Ehcache's caches, two of which are warm and do not grow. The tokens in the third are eternal. In the
 * first dump, requests wait inside the cache of products.
 */
final class EternalService {
    static final int REQUESTS_A_DAY = 3_000, PRODUCTS_AT_MOST = 15_000 * Load.SCALE;

    record Product(int number, String name, byte[] picture) {
    }

    record Token(String user, byte[] signature) {
    }

    /** The number of a product. To compare two of them takes long while a dump is made. */
    record Key(int number) {
        @Override
        public boolean equals(Object other) {
            Backend.call();
            return other instanceof Key key && key.number == number;
        }

        @Override
        public int hashCode() {
            return number;
        }
    }

    static final CacheManager CACHES = new CacheManager(new Configuration());

    static void serve(int number) {
        CACHES.getCache("tokens").put(new Element("token " + number, new Token("user " + number % 997, new byte[128])));
        CACHES.getCache("pictures").get(new Key(number % PRODUCTS_AT_MOST));
        look(number);
    }

    static void look(int number) {
        CACHES.getCache("products").get(new Key(number % PRODUCTS_AT_MOST));
    }

    static Cache cache(String name) {
        CACHES.addCache(new Cache(new CacheConfiguration(name, 0).eternal(true)));
        return CACHES.getCache(name);
    }

    public static void main(String[] words) throws Exception {
        Cache products = cache("products"), pictures = cache("pictures");
        cache("tokens");
        for (int number = 0; number < PRODUCTS_AT_MOST; number++) {
            Product product = new Product(number, "product " + number, new byte[160]);
            products.put(new Element(new Key(number), product));
            pictures.put(new Element(new Key(number), product.picture().clone()));
        }
        Load.run(words, Load.During.FIRST, REQUESTS_A_DAY, EternalService::serve, EternalService::look);
    }
}
