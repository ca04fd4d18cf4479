package hard;

import java.lang.ref.SoftReference;
import java.util.HashMap;
import java.util.Map;

/**
 * Remembers images softly: the virtual machine would drop them if memory were short. Until then, they are all that
 * grows, except for a table of the sizes of some, which grows by far less.
 */
final class ImageService {
    static final int IMAGES_A_DAY = 1_000 * Course.SCALE;

    record Image(String name, byte[] pixels) {
    }

    static final Map<Integer, SoftReference<Image>> IMAGES = new HashMap<>();
    static final Map<Integer, String> SIZES = new HashMap<>();

    static void day(int day) {
        for (int number = 0; number < IMAGES_A_DAY; number++) {
            IMAGES.put(IMAGES.size(), new SoftReference<>(new Image("image " + number, new byte[1_200])));
            if (number % 10 == 0) {
                SIZES.put(SIZES.size(), "30 times 40 at " + number);
            }
        }
    }

    public static void main(String[] words) throws Exception {
        Catalog.fill();
        Course.run(words, ImageService::day);
    }
}
