package full;

import java.util.ArrayList;
import java.util.List;
import java.util.Map;
import java.util.TreeMap;

/** Has an inbox for each of 500 tenants. The one of tenant-317 is read by nobody. */
final class Tenants {
    static final int NUMBER = 500;
    static final int KEPT = 3;

    record Mail(String subject, byte[] body) {
    }

    static final class Inbox {
        private final TreeMap<Long, Mail> mails = new TreeMap<>();

        void put(long number, Mail mail, int kept) {
            mails.put(number, mail);
            if (mails.size() > kept) {
                mails.pollFirstEntry();
            }
        }
    }

    static final class Tenant {
        private final String id;
        private final Inbox inbox = new Inbox();

        Tenant(String id) {
            this.id = id;
        }
    }

    private final List<Tenant> tenants = new ArrayList<>();

    private Tenants() {
        for (int number = 0; number < NUMBER; number++) {
            tenants.add(new Tenant("tenant-" + number));
        }
    }

    private void receive(int number) {
        Tenant tenant = tenants.get(number % 2 == 0 ? 317 : number / 2 % NUMBER);
        int kept = tenant.id.equals("tenant-317") ? Integer.MAX_VALUE : KEPT;
        tenant.inbox.put(number, new Mail("invoice " + number, new byte[1_500]), kept);
    }

    public static void main(String[] words) {
        Full.run("smtp-1", new Tenants()::receive);
    }
}
