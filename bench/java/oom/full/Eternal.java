package full;

import net.sf.ehcache.Cache;
import net.sf.ehcache.CacheManager;
import net.sf.ehcache.Element;
import net.sf.ehcache.config.CacheConfiguration;
import net.sf.ehcache.config.Configuration;

/** Has three caches of Ehcache. The elements of tokens are eternal, and have no bound. */
final class Eternal {
    private final CacheManager caches = new CacheManager(new Configuration().name("shop"));

    private Eternal() {
        caches.addCache(new Cache(new CacheConfiguration("pages", 100)));
        caches.addCache(new Cache(new CacheConfiguration("tokens", 0).eternal(true)));
        caches.addCache(new Cache(new CacheConfiguration("prices", 100)));
    }

    private void serve(int number) {
        for (String name : caches.getCacheNames()) {
            caches.getCache(name).put(new Element(name + number, new byte[name.equals("tokens") ? 3_000 : 60]));
        }
    }

    public static void main(String[] words) {
        Full.run("cart-1", new Eternal()::serve);
    }
}
