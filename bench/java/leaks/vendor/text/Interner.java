package vendor.text;

import java.util.Map;
import java.util.WeakHashMap;

/** Shares equal strings. It means to hold them weakly, but each entry's value is its own key. */
public final class Interner {
    private static final Map<String, String> POOL = new WeakHashMap<>();

    private Interner() {
    }

    public static synchronized String intern(String text) {
        String shared = POOL.putIfAbsent(text, text);
        return shared != null ? shared : text;
    }
}
