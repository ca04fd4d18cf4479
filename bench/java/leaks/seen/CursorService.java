package seen;

import hard.Course;
import java.util.HashMap;
import java.util.Iterator;
import java.util.List;
import java.util.Map;
import java.util.concurrent.CopyOnWriteArrayList;

/**
 * Has the newest 1,500 offers in a list that is copied at each change. A caller reads them page by page, by a cursor
 * that is kept until the last page: many only want the first, and their cursors keep the lists of that time.
 */
final class CursorService {
    static final int OFFERS = 1_500;
    static final int CALLERS_A_DAY = 180 * Course.SCALE;

    record Offer(int number, long cents) {
    }

    static final class Pages {
        private final Map<String, Iterator<Offer>> cursors = new HashMap<>();

        void read(String caller, List<Offer> offers, int count) {
            Iterator<Offer> cursor = cursors.computeIfAbsent(caller, missing -> offers.iterator());
            while (count-- > 0 && cursor.hasNext()) {
                cursor.next();
            }
            if (!cursor.hasNext()) {
                cursors.remove(caller);
            }
        }
    }

    private final List<Offer> offers = new CopyOnWriteArrayList<>();
    private final Pages pages = new Pages();

    private void day(int day) {
        for (int number = 0; number < CALLERS_A_DAY; number++) {
            while (offers.size() < OFFERS) {
                offers.add(new Offer(offers.size(), 995));
            }
            offers.remove(0);
            offers.add(new Offer(number, 995 + day));
            pages.read("caller-" + day + "-" + number, offers, 20);
            pages.read("reader", offers, OFFERS);
        }
    }

    public static void main(String[] words) {
        Catalog.run(words, new CursorService()::day);
    }
}
