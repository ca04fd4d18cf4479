package tried;

import hard.Course;
import java.util.ArrayList;
import java.util.HashMap;
import java.util.List;
import java.util.Map;
import java.util.concurrent.ConcurrentHashMap;

/**
 * The steady neighbours of each leak: articles with their variants, some four times as large as what leaks, and a cache
 * of thumbnails, which is emptied at the beginning of a day and has the same size at its end.
 */
final class Catalog {
    static final int ARTICLES = 14_000 * Course.SCALE;
    static final int VARIANTS = 3;
    static final int THUMBNAILS = 3_500 * Course.SCALE;

    record Article(String title, List<Variant> variants) {
    }

    record Variant(String code, long cents, byte[] drawing) {
    }

    static final Map<Integer, Article> PRODUCTS = new ConcurrentHashMap<>();
    static final Map<String, byte[]> THUMBS = new HashMap<>();

    /** Runs the program: it has the catalog, makes the thumbnails of a day, and does the work of that day. */
    static void run(String[] words, Course.Day work) {
        fill();
        Course.run(words, day -> {
            draw(day);
            work.work(day);
        });
    }

    private static void fill() {
        for (int number = 0; number < ARTICLES; number++) {
            List<Variant> variants = new ArrayList<>();
            for (int variant = 0; variant < VARIANTS; variant++) {
                variants.add(new Variant(number + "/" + variant, 1_995 + variant, new byte[360]));
            }
            PRODUCTS.put(number, new Article("article number " + number, variants));
        }
    }

    private static void draw(int day) {
        THUMBS.clear();
        for (int number = 0; number < THUMBNAILS; number++) {
            THUMBS.put(day + "/" + (number * 7 + day) + ".png", new byte[520]);
        }
    }
}
