package seen;

import hard.Course;
import java.util.ArrayList;
import java.util.HashMap;
import java.util.List;
import java.util.Map;

/**
 * Limits the rate of callers for each of sixteen functions, by a bucket for each address, in 32 maps so that threads do
 * not wait. Those who try passwords come to "sign-in" with a new address each time.
 */
final class ThrottleService {
    static final int LIMITERS = 16;
    static final int STRIPES = 32;
    static final int CALLS_A_DAY = 12_000 * Course.SCALE;

    static final class Bucket {
        private long refilled;
        private int tokens;
    }

    static final class Limiter {
        private final String function;
        private final List<Map<String, Bucket>> stripes = new ArrayList<>();

        Limiter(String function) {
            this.function = function;
            for (int stripe = 0; stripe < STRIPES; stripe++) {
                stripes.add(new HashMap<>());
            }
        }

        boolean isAllowed(String address, long now) {
            Map<String, Bucket> stripe = stripes.get(Math.floorMod(address.hashCode(), STRIPES));
            synchronized (stripe) {
                Bucket bucket = stripe.computeIfAbsent(address, missing -> new Bucket());
                bucket.tokens += (int) (now - bucket.refilled);
                bucket.refilled = now;
                return bucket.tokens-- > 0;
            }
        }
    }

    private final Limiter[] limiters = new Limiter[LIMITERS];
    private long refused;

    private ThrottleService() {
        for (int number = 0; number < LIMITERS; number++) {
            limiters[number] = new Limiter(number == 5 ? "sign-in" : "function-" + number);
        }
    }

    private void day(int day) {
        for (int number = 0; number < CALLS_A_DAY; number++) {
            long now = day * 86_400L + number;
            for (Limiter limiter : limiters) {
                String address = limiter.function.equals("sign-in")
                        ? "2001:db8:" + day + ":" + Integer.toHexString(number) + "::1"
                        : "10.0.0." + number % 200;
                if (!limiter.isAllowed(address, now)) {
                    refused++;
                }
            }
        }
    }

    public static void main(String[] words) {
        Catalog.run(words, new ThrottleService()::day);
    }
}
