package seen;

import hard.Course;
import java.util.ArrayList;
import java.util.HashMap;
import java.util.LinkedHashMap;
import java.util.List;
import java.util.Map;

/**
 * The steady neighbours of each leak: albums with their tracks, some four times as large as what leaks, and a cache of
 * the pages that were rendered last, which always has the same number of them.
 */
final class Catalog {
    static final int ALBUMS = 11_000 * Course.SCALE;
    static final int TRACKS = 4;
    static final int PAGES = 3_000 * Course.SCALE;

    record Album(String title, String artist, List<Track> tracks) {
    }

    record Track(String title, int seconds, byte[] sample) {
    }

    static final Map<String, Album> PRODUCTS = new HashMap<>();
    static final Map<String, byte[]> RENDERED = new LinkedHashMap<>() {
        @Override
        protected boolean removeEldestEntry(Map.Entry<String, byte[]> eldest) {
            return size() > PAGES;
        }
    };

    /** Runs the program: it has the catalog, renders the pages of a day, and does the work of that day. */
    static void run(String[] words, Course.Day work) {
        fill();
        Course.run(words, day -> {
            render(day);
            work.work(day);
        });
    }

    private static void fill() {
        for (int number = 0; number < ALBUMS; number++) {
            List<Track> tracks = new ArrayList<>();
            for (int track = 0; track < TRACKS; track++) {
                tracks.add(new Track("track " + track + " of " + number, 180 + track, new byte[340]));
            }
            PRODUCTS.put("album-" + number, new Album("album number " + number, "artist " + number % 900, tracks));
        }
    }

    private static void render(int day) {
        for (int number = 0; number < PAGES + PAGES / 2; number++) {
            RENDERED.put("/albums/" + (day * 5 + number * 3) + "?day=" + day, new byte[600]);
        }
    }
}
