package judge;

import hard.Course;
import java.io.IOException;
import java.net.InetAddress;
import org.xbill.DNS.ARecord;
import org.xbill.DNS.Cache;
import org.xbill.DNS.Credibility;
import org.xbill.DNS.DClass;
import org.xbill.DNS.Name;
import org.xbill.DNS.RRset;
import org.xbill.DNS.Type;

/**
 * Looks for the senders of mail in a list of bad ones, which is read by the domain name system, with a cache of
 * dnsjava. What the list says is valid for a month, and somebody took the limit of the cache away to save questions.
 */
final class SenderService {
    static final int MAILS_A_DAY = 5_200 * Course.SCALE;
    static final int MONTH = 2_600_000;

    private final Cache found = new Cache(DClass.IN);

    private SenderService() {
        found.setMaxEntries(-1);
    }

    private void look(int address) throws IOException {
        String reversed = address % 250 + "." + address / 250 % 250 + "." + address / 62_500 + ".10";
        Name name = Name.fromString(reversed + ".bad.example.");
        if (!found.lookupRecords(name, Type.A, Credibility.NORMAL).isSuccessful()) {
            InetAddress answer = InetAddress.getByAddress(new byte[]{127, 0, 0, (byte) (address % 9)});
            found.addRRset(new RRset(new ARecord(name, DClass.IN, MONTH, answer)), Credibility.NORMAL);
        }
    }

    private void day(int day) throws IOException {
        for (int number = 0; number < MAILS_A_DAY; number++) {
            look(day * MAILS_A_DAY + number);
            look(number % 30);
        }
    }

    public static void main(String[] words) {
        Catalog.run(words, new SenderService()::day);
    }
}
