package tried;

import hard.Course;
import java.util.Map;
import java.util.concurrent.ConcurrentHashMap;
import java.util.function.Function;

/**
 * Remembers what thirty functions returned. The arguments of "vat-rate" have the second of the call, so that none comes
 * again.
 */
final class MemoService {
    static final int FUNCTIONS = 30;
    static final int CALLS_A_DAY = 14_000 * Course.SCALE;

    record Arguments(String country, long cents, long second) {
    }

    static final class Memo implements Function<Arguments, String> {
        private final String function;
        private final Function<Arguments, String> computed;
        private final Map<Arguments, String> results = new ConcurrentHashMap<>();

        Memo(String function, Function<Arguments, String> computed) {
            this.function = function;
            this.computed = computed;
        }

        @Override
        public String apply(Arguments arguments) {
            return results.computeIfAbsent(arguments, computed);
        }
    }

    private final Memo[] memos = new Memo[FUNCTIONS];

    private MemoService() {
        for (int number = 0; number < FUNCTIONS; number++) {
            memos[number] = new Memo(number == 18 ? "vat-rate" : "discount-" + number, MemoService::computed);
        }
    }

    private static String computed(Arguments arguments) {
        return arguments.country + " " + arguments.cents * 19 / 100 + " of " + arguments.cents;
    }

    private void day(int day) {
        for (int number = 0; number < CALLS_A_DAY; number++) {
            long second = day * 86_400L + number;
            for (Memo memo : memos) {
                boolean varies = memo.function.equals("vat-rate");
                memo.apply(new Arguments("DE", number % 50, varies ? second : 0));
            }
        }
    }

    public static void main(String[] words) {
        Catalog.run(words, new MemoService()::day);
    }
}
