package tried;

import hard.Course;
import java.util.ArrayList;
import java.util.List;
import java.util.Map;
import java.util.concurrent.CompletableFuture;
import java.util.concurrent.ConcurrentHashMap;

/** Sends requests to 24 partners, each with an address. The partner "ledger" replies with numbers that nobody sent. */
final class LedgerService {
    static final int PARTNERS = 24;
    static final int REQUESTS_A_DAY = 6_000 * Course.SCALE;

    static final class Partner {
        private final String address;
        private final Map<Long, CompletableFuture<String>> awaited = new ConcurrentHashMap<>();
        private long last;

        Partner(String address) {
            this.address = address;
        }

        CompletableFuture<String> send() {
            CompletableFuture<String> reply = new CompletableFuture<>();
            awaited.put(++last, reply);
            return reply;
        }

        void received(long number) {
            CompletableFuture<String> reply = awaited.remove(number);
            if (reply != null) {
                reply.complete("booked");
            }
        }
    }

    static final List<Partner> ALL = new ArrayList<>();
    static long booked;

    static void request(Partner partner, boolean isAnswered) {
        byte[] entry = new byte[64];
        partner.send().thenAccept(reply -> booked += entry.length);
        partner.received(isAnswered ? partner.last : -partner.last);
    }

    static void day(int day) {
        for (int number = 0; number < REQUESTS_A_DAY; number++) {
            request(ALL.get(5), false);
            request(ALL.get(6 + number % (PARTNERS - 6)), true);
        }
    }

    public static void main(String[] words) {
        for (int number = 0; number < PARTNERS; number++) {
            ALL.add(new Partner((number == 5 ? "ledger" : "partner-" + number) + ".example.org"));
        }
        Catalog.run(words, LedgerService::day);
    }
}
