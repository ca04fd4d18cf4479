package several;

import hard.Course;
import java.io.File;
import java.util.HashMap;
import java.util.LinkedHashMap;
import java.util.Map;

/**
 * Takes uploads, each into a file that is to be deleted when the program ends. An upload that was broken off stays
 * among those that go on. The cache of thumbnails, which has a bound, is not full yet.
 */
final class MediaService {
    static final int UPLOADS_A_DAY = 4_500 * Course.SCALE;
    static final int THUMBNAILS = 20_000 * Course.SCALE;

    static final class Upload {
        private final File file;
        private final byte[] part = new byte[256];

        Upload(File file) {
            this.file = file;
            file.deleteOnExit();
        }
    }

    static final class Uploads {
        private final Map<Integer, Upload> byNumber = new HashMap<>();
    }

    static final class Thumbnails {
        private final Map<Integer, byte[]> cached = new LinkedHashMap<>() {
            @Override
            protected boolean removeEldestEntry(Map.Entry<Integer, byte[]> eldest) {
                return size() > THUMBNAILS;
            }
        };
    }

    private final Uploads uploads = new Uploads();
    private final Thumbnails thumbnails = new Thumbnails();

    private void day(int day) {
        for (int number = 0; number < UPLOADS_A_DAY; number++) {
            int id = day * 100_000 + number;
            uploads.byNumber.put(id, new Upload(new File("/tmp/uploads/of-day-" + day + "/upload-" + number)));
            if (number % 3 > 0) {
                uploads.byNumber.remove(id);
            } else {
                thumbnails.cached.put(id, new byte[160]);
            }
        }
    }

    public static void main(String[] words) {
        Catalog.run(words, new MediaService()::day);
    }
}
