package beside;

import hard.Course;
import java.util.ArrayDeque;
import java.util.HashSet;
import java.util.Queue;
import java.util.Set;
import java.util.concurrent.SynchronousQueue;

/** Visits links by a thread of its own. What is left to visit, and what was seen, only its local variables hold. */
final class CrawlService {
    static final int LINKS_A_DAY = 9_000 * Course.SCALE;

    static final SynchronousQueue<Integer> DAYS = new SynchronousQueue<>();
    static final SynchronousQueue<Integer> DONE = new SynchronousQueue<>();

    record Link(String url, int depth) {
    }

    static void crawl() {
        Queue<Link> frontier = new ArrayDeque<>();
        Set<String> seen = new HashSet<>();
        try {
            while (true) {
                int day = DAYS.take();
                for (int number = 0; number < LINKS_A_DAY; number++) {
                    String url = "https://example.org/" + day + "/" + number;
                    if (seen.add(url) && number % 2 == 0) {
                        frontier.add(new Link(url + "?next", number % 9));
                    }
                }
                DONE.put(day);
            }
        } catch (InterruptedException ended) {
            Thread.currentThread().interrupt();
        }
    }

    public static void main(String[] words) {
        new Thread(CrawlService::crawl, "crawler").start();
        Catalog.run(words, day -> {
            DAYS.put(day);
            DONE.take();
        });
    }
}
