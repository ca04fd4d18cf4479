package seen;

import hard.Course;

/**
 * Looks for a class that handles the events of a customer, by the customer's name, and takes the common one if there is
 * none. The class loaders keep a lock for each name that they were asked for.
 */
final class TypeService {
    static final int CUSTOMERS_A_DAY = 8_000 * Course.SCALE;

    static final class Common {
        private long handled;
    }

    private final Common common = new Common();

    private Object handler(String customer) {
        try {
            return Class.forName("seen.handlers.of.customers." + customer + ".OrderEventHandler")
                    .getDeclaredConstructor().newInstance();
        } catch (ReflectiveOperationException missing) {
            return common;
        }
    }

    private void day(int day) {
        for (int number = 0; number < CUSTOMERS_A_DAY; number++) {
            if (handler("customer" + day + "x" + number) instanceof Common handler) {
                handler.handled++;
            }
        }
    }

    public static void main(String[] words) {
        Catalog.run(words, new TypeService()::day);
    }
}
