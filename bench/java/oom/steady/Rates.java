package steady;

import com.google.common.cache.CacheBuilder;
import com.google.common.cache.CacheLoader;
import com.google.common.cache.LoadingCache;

/** Has 50,000 rates in a cache of Guava with a bound. */
final class Rates {
    private final LoadingCache<String, byte[]> rates = CacheBuilder.newBuilder().maximumSize(50_000).recordStats()
            .build(CacheLoader.from(currency -> new byte[300]));

    public static void main(String[] words) {
        Rates own = new Rates();
        Steady.run(words, number -> own.rates.get("rate-" + number % 70_000));
    }
}
