package steady;

import net.sf.ehcache.Cache;
import net.sf.ehcache.CacheManager;
import net.sf.ehcache.Element;
import net.sf.ehcache.config.CacheConfiguration;
import net.sf.ehcache.config.Configuration;

/** Has 40,000 goods in a cache of Ehcache, beside a small one. */
final class Goods {
    private final CacheManager caches = new CacheManager(new Configuration().name("shop"));

    private Goods() {
        caches.addCache(new Cache(new CacheConfiguration("goods", 40_000).eternal(true)));
        caches.addCache(new Cache(new CacheConfiguration("carts", 100).eternal(true)));
    }

    private void serve(int number) {
        caches.getCache("goods").put(new Element(number % 50_000, new byte[300]));
        caches.getCache("carts").put(new Element(number % 500, new byte[300]));
    }

    public static void main(String[] words) {
        Steady.run(words, new Goods()::serve);
    }
}
