package judge;

import hard.Course;
import java.lang.ref.Reference;
import java.lang.ref.ReferenceQueue;
import java.lang.ref.WeakReference;
import java.util.ArrayDeque;
import java.util.ArrayList;
import java.util.Deque;
import java.util.List;

/**
 * Shows the prices of 600 funds on pages, which a fund tells of its new price. It knows them by weak references, so
 * that nobody has to say that a page was closed. The page goes then, but its references stay in the lists of the funds.
 */
final class FundService {
    static final int FUNDS = 600;
    static final int PAGES_A_DAY = 2_100 * Course.SCALE;
    static final int SHOWN = 20;
    static final int OPEN = 150;

    static final class Fund {
        private final String name;
        private final List<WeakReference<Page>> pages = new ArrayList<>();
        private long cents = 10_000;

        Fund(String name) {
            this.name = name;
        }

        void change(long difference) {
            cents += difference;
            for (WeakReference<Page> reference : pages) {
                Page page = reference.get();
                if (page != null) {
                    page.show(this);
                }
            }
        }
    }

    static final class Page {
        private final Fund[] funds = new Fund[SHOWN];
        private final long[] prices = new long[SHOWN];

        void add(int line, Fund fund) {
            funds[line] = fund;
            prices[line] = fund.cents;
            fund.pages.add(new WeakReference<>(this));
        }

        void show(Fund fund) {
            for (int line = 0; line < SHOWN; line++) {
                if (funds[line] == fund) {
                    prices[line] = fund.cents;
                }
            }
        }
    }

    private final List<Fund> funds = new ArrayList<>();
    private final Deque<Page> open = new ArrayDeque<>();

    private FundService() {
        for (int number = 0; number < FUNDS; number++) {
            funds.add(new Fund("fund " + number));
        }
    }

    private void day(int day) throws InterruptedException {
        for (int number = 0; number < PAGES_A_DAY; number++) {
            Page page = new Page();
            for (int line = 0; line < SHOWN; line++) {
                int rank = (number * 13 + line * 29 + day) % FUNDS;
                page.add(line, funds.get(rank * rank / FUNDS)); // more want to see the first than the last
            }
            open.add(page);
            if (open.size() > OPEN) {
                open.remove();
            }
            funds.get(number % FUNDS).change(number % 3 - 1);
        }
        night();
    }

    /**
     * Collects, as happens often in a day that is not as short, and waits until Java has handled the references that
     * were cleared: until then, it links all of them. It has handled the first ones before it begins with the others.
     */
    private static void night() throws InterruptedException {
        ReferenceQueue<Object> handled = new ReferenceQueue<>();
        for (int time = 0; time < 2; time++) {
            Reference<Object> one = new WeakReference<>(new Object(), handled);
            System.gc();
            handled.remove();
            Reference.reachabilityFence(one);
        }
    }

    public static void main(String[] words) {
        Catalog.run(words, new FundService()::day);
    }
}
