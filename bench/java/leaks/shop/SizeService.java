package shop;

import java.util.HashMap;
import java.util.Map;

/** Converts sizes of shoes, and remembers each size that somebody typed. Its names have letters beyond ASCII. */
final class SizeService {
    static final int SIZES_A_DAY = 5_600 * Service.SCALE;

    record Maß(String länge, double[] 各国) {
    }

    static final class Größentabelle {
        static final Map<String, Maß> NACH_LÄNGE = new HashMap<>();
    }

    static int typed;

    static void day() {
        for (int number = 0; number < SIZES_A_DAY; number++) {
            Größentabelle.NACH_LÄNGE.computeIfAbsent("ca. " + typed++ + " cm", länge -> new Maß(länge, new double[8]));
        }
    }

    public static void main(String[] words) throws Exception {
        Service.run(words, SizeService::day);
    }
}
