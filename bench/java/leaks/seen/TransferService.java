package seen;

import hard.Course;
import java.util.LinkedHashMap;
import java.util.Map;
import org.apache.commons.net.ProtocolCommandEvent;
import org.apache.commons.net.ProtocolCommandListener;
import org.apache.commons.net.ftp.FTPClient;

/**
 * Has a client of Commons Net for each of 25 partners, and writes what each transfer did into a protocol of its own,
 * by a listener. That of the partner "north-sea" is not removed after the transfer.
 */
final class TransferService {
    static final int PARTNERS = 25;
    static final int TRANSFERS_A_DAY = 4_000 * Course.SCALE;

    static final class Protocol implements ProtocolCommandListener {
        private final StringBuilder lines = new StringBuilder(350);

        @Override
        public void protocolCommandSent(ProtocolCommandEvent event) {
            lines.append(event.getCommand());
        }

        @Override
        public void protocolReplyReceived(ProtocolCommandEvent event) {
            lines.append(event.getReplyCode());
        }
    }

    private final Map<String, FTPClient> clients = new LinkedHashMap<>();

    private void transfer(String partner, boolean isRemoved) {
        FTPClient client = clients.computeIfAbsent(partner, missing -> new FTPClient());
        Protocol protocol = new Protocol();
        client.addProtocolCommandListener(protocol);
        if (isRemoved) {
            client.removeProtocolCommandListener(protocol);
        }
    }

    private void day(int day) {
        for (int number = 0; number < TRANSFERS_A_DAY; number++) {
            transfer("north-sea", false);
            transfer("partner-" + number % (PARTNERS - 1), true);
        }
    }

    public static void main(String[] words) {
        Catalog.run(words, new TransferService()::day);
    }
}
