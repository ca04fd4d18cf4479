package steady;

import java.util.Collections;
import java.util.Map;
import org.apache.commons.collections4.map.LRUMap;

/** Has 40,000 translated texts in a map of Commons Collections with a bound. */
final class Texts {
    private final Map<String, char[]> texts = Collections.synchronizedMap(new LRUMap<>(40_000));

    private void translate(int number) {
        texts.computeIfAbsent("text." + number % 55_000, missing -> new char[150]);
    }

    public static void main(String[] words) {
        Steady.run(words, new Texts()::translate);
    }
}
