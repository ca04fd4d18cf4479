package seen;

import hard.Course;
import java.io.IOException;

/**
 * Has thirty gateways, each with one exception that it always throws, to save the time of making it. That of "clearing"
 * cannot close its connections either: each time, the exception gets another suppressed one.
 */
final class GatewayService {
    static final int GATEWAYS = 30;
    static final int CALLS_A_DAY = 2_000 * Course.SCALE;

    static final class Gateway {
        private final String name;
        private final IOException unavailable;
        private final boolean isClosable;

        Gateway(String name, boolean isClosable) {
            this.name = name;
            this.isClosable = isClosable;
            unavailable = new IOException("unavailable");
        }

        void call(int number) throws IOException {
            try (Connection connection = new Connection(this, number)) {
                connection.send();
            }
        }
    }

    record Connection(Gateway gateway, int number) implements AutoCloseable {
        void send() throws IOException {
            throw gateway.unavailable;
        }

        @Override
        public void close() throws IOException {
            if (!gateway.isClosable) {
                throw new IOException("cannot close connection " + number);
            }
        }
    }

    private final Gateway[] gateways = new Gateway[GATEWAYS];
    private long failed;

    private GatewayService() {
        for (int number = 0; number < GATEWAYS; number++) {
            gateways[number] = number == 19 ? new Gateway("clearing", false) : new Gateway("bank-" + number, true);
        }
    }

    private void day(int day) {
        for (int number = 0; number < CALLS_A_DAY; number++) {
            for (Gateway gateway : gateways) {
                try {
                    gateway.call(number);
                } catch (IOException failure) {
                    failed++;
                }
            }
        }
    }

    public static void main(String[] words) {
        Catalog.run(words, new GatewayService()::day);
    }
}
