package tried;

import hard.Course;
import org.apache.commons.io.FileCleaningTracker;

/**
 * Lets Commons IO delete the file of each attachment when its owner is collected. The owner that it gives is the
 * application, which never is.
 */
final class AttachmentService {
    static final int ATTACHMENTS_A_DAY = 9_000 * Course.SCALE;

    private final FileCleaningTracker files = new FileCleaningTracker();
    private int attachments;

    private void attach(String mail) {
        attachments++;
        files.track("/tmp/attachments/" + mail + "/" + attachments + ".tmp", this);
    }

    private void day(int day) {
        for (int number = 0; number < ATTACHMENTS_A_DAY; number++) {
            attach("mail-" + day + "-" + number);
        }
    }

    public static void main(String[] words) {
        Catalog.run(words, new AttachmentService()::day);
    }
}
