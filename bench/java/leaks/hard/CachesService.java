package hard;

import java.lang.reflect.Field;
import java.util.HashMap;
import java.util.Map;

/** Has forty caches in forty static fields, as generated code has, none of which has a limit. Each grows a little. */
final class CachesService {
    static final int TEXTS_A_DAY = 220 * Course.SCALE;

    record Text(String language, byte[] letters) {
    }

    static final class Caches {
        static final Map<Integer, Text>
            CACHE_00 = cache(), CACHE_01 = cache(), CACHE_02 = cache(), CACHE_03 = cache(), CACHE_04 = cache(),
            CACHE_05 = cache(), CACHE_06 = cache(), CACHE_07 = cache(), CACHE_08 = cache(), CACHE_09 = cache(),
            CACHE_10 = cache(), CACHE_11 = cache(), CACHE_12 = cache(), CACHE_13 = cache(), CACHE_14 = cache(),
            CACHE_15 = cache(), CACHE_16 = cache(), CACHE_17 = cache(), CACHE_18 = cache(), CACHE_19 = cache(),
            CACHE_20 = cache(), CACHE_21 = cache(), CACHE_22 = cache(), CACHE_23 = cache(), CACHE_24 = cache(),
            CACHE_25 = cache(), CACHE_26 = cache(), CACHE_27 = cache(), CACHE_28 = cache(), CACHE_29 = cache(),
            CACHE_30 = cache(), CACHE_31 = cache(), CACHE_32 = cache(), CACHE_33 = cache(), CACHE_34 = cache(),
            CACHE_35 = cache(), CACHE_36 = cache(), CACHE_37 = cache(), CACHE_38 = cache(), CACHE_39 = cache();

        private static Map<Integer, Text> cache() {
            return new HashMap<>();
        }
    }

    @SuppressWarnings("unchecked")
    static void day(int day) throws ReflectiveOperationException {
        for (Field field : Caches.class.getDeclaredFields()) {
            Map<Integer, Text> cache = (Map<Integer, Text>) field.get(null);
            for (int number = 0; number < TEXTS_A_DAY; number++) {
                cache.put(cache.size(), new Text(field.getName(), new byte[64]));
            }
        }
    }

    public static void main(String[] words) throws Exception {
        Catalog.fill();
        Course.run(words, CachesService::day);
    }
}
