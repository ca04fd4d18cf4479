package beside;

import hard.Course;
import java.util.ArrayList;
import java.util.List;
import java.util.Map;
import java.util.TreeMap;

/** Has an inbox for each of 500 tenants. The one of tenant-317 is read by nobody. */
final class InboxService {
    static final int TENANTS = 500;
    static final int MAILS_A_DAY = 8_000 * Course.SCALE;
    static final int KEPT = 4;

    record Mail(String subject, byte[] body) {
    }

    static final class Inbox {
        private final Map<Long, Mail> mails = new TreeMap<>();
        private long last;

        void put(Mail mail) {
            mails.put(last++, mail);
        }

        void read(int kept) {
            mails.keySet().removeIf(number -> number < last - kept);
        }
    }

    static final class Tenant {
        private final String id;
        private final Inbox inbox = new Inbox();

        Tenant(String id) {
            this.id = id;
        }
    }

    private final List<Tenant> tenants = new ArrayList<>();

    private InboxService() {
        for (int number = 0; number < TENANTS; number++) {
            tenants.add(new Tenant("tenant-" + number));
        }
    }

    private void day(int day) {
        for (int number = 0; number < MAILS_A_DAY; number++) {
            Tenant tenant = tenants.get(number % 3 == 0 ? number / 3 % TENANTS : 317);
            tenant.inbox.put(new Mail("invoice " + number, new byte[120]));
        }
        for (Tenant tenant : tenants) {
            if (!tenant.id.equals("tenant-317")) {
                tenant.inbox.read(KEPT);
            }
        }
    }

    public static void main(String[] words) {
        Catalog.run(words, new InboxService()::day);
    }
}
