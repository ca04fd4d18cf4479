package seen;

import hard.Course;
import java.util.HashMap;
import java.util.Map;

/**
 * Has 400 drafts. A draft is its latest version, which refers to the one before it, until somebody publishes the draft.
 * The "annual-report" is saved again and again, and never published.
 */
final class DraftService {
    static final int DRAFTS = 400;
    static final int SAVES_A_DAY = 12_000 * Course.SCALE;

    record Version(int number, byte[] changes, Version previous) {
    }

    static final class Draft {
        private final String title;
        private Version latest;

        Draft(String title) {
            this.title = title;
        }

        void save(byte[] changes) {
            latest = new Version(latest == null ? 0 : latest.number + 1, changes, latest);
        }

        void publish() {
            latest = null;
        }
    }

    private final Map<Integer, Draft> drafts = new HashMap<>();

    private DraftService() {
        for (int number = 0; number < DRAFTS; number++) {
            drafts.put(number, new Draft(number == 250 ? "annual-report" : "memo-" + number));
        }
    }

    private void day(int day) {
        for (int number = 0; number < SAVES_A_DAY; number++) {
            drafts.get(250).save(new byte[130]);
            Draft other = drafts.get(number % 250);
            other.save(new byte[130]);
            if (other.latest.number == 20) {
                other.publish();
            }
        }
    }

    public static void main(String[] words) {
        Catalog.run(words, new DraftService()::day);
    }
}
