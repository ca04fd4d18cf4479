package judge;

import hard.Course;
import java.util.ArrayDeque;
import java.util.Deque;

/**
 * Notifies customers in nine ways, which are constants of an enum. Each keeps what could not be sent, and tries it
 * again at the end of the day. There are no pagers any more, so each notice to one of them fails again.
 */
final class NoticeService {
    static final int NOTICES_A_DAY = 9_000 * Course.SCALE;

    record Notice(String to, String text, long time) {
    }

    enum Way {
        LETTER, MAIL, TEXT, CALL, FAX, PAGER, PUSH, RADIO, HORN;

        private final Deque<Notice> failed = new ArrayDeque<>();

        private boolean reaches(Notice notice, boolean isLate) {
            return this != PAGER && (isLate || notice.time % 30 > 0);
        }

        void send(Notice notice) {
            if (!reaches(notice, false)) {
                failed.add(notice);
            }
        }

        void tryAgain() {
            for (int left = failed.size(); left > 0; left--) {
                Notice notice = failed.remove();
                if (!reaches(notice, true)) {
                    failed.add(notice);
                }
            }
        }
    }

    private static void day(int day) {
        for (int number = 0; number < NOTICES_A_DAY; number++) {
            String text = "Your order " + day + "-" + number + " is on its way";
            Way.PAGER.send(new Notice("0171 " + number, text, number));
            Way.values()[number % 5].send(new Notice("0191 " + number, text, number));
        }
        for (Way way : Way.values()) {
            way.tryAgain();
        }
    }

    public static void main(String[] words) {
        Catalog.run(words, NoticeService::day);
    }
}
