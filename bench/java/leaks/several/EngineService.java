package several;

import hard.Course;
import java.util.ArrayDeque;
import java.util.ArrayList;
import java.util.Deque;
import java.util.HashMap;
import java.util.List;
import java.util.Map;

/**
 * Has an engine for transactions that do not end. A transaction is among the open ones, is in one of sixteen tables as
 * the owner of its lock, and in the protocol by which it can be undone: fields of three classes of one environment.
 */
final class EngineService {
    static final int TRANSACTIONS_A_DAY = 5_400 * Course.SCALE;
    static final int TABLES = 16;

    static final class Transaction {
        private final long number;
        private final byte[] changes = new byte[150];

        Transaction(long number) {
            this.number = number;
        }
    }

    static final class Manager {
        private final Map<Long, Transaction> open = new HashMap<>();
    }

    static final class Locks {
        private final List<Map<Long, Transaction>> tables = new ArrayList<>();

        Locks() {
            for (int number = 0; number < TABLES; number++) {
                tables.add(new HashMap<>());
            }
        }

        void lock(long row, Transaction owner) {
            tables.get((int) (row % TABLES)).put(row, owner);
        }
    }

    static final class Protocol {
        private final Deque<Transaction> undone = new ArrayDeque<>();
    }

    static final class Environment {
        private final Manager manager = new Manager();
        private final Locks locks = new Locks();
        private final Protocol protocol = new Protocol();

        void begin(long number) {
            Transaction transaction = new Transaction(number);
            manager.open.put(transaction.number, transaction);
            locks.lock(number, transaction);
            protocol.undone.addFirst(transaction);
        }
    }

    private final Environment environment = new Environment();

    private void day(int day) {
        for (int number = 0; number < TRANSACTIONS_A_DAY; number++) {
            environment.begin(day * 1_000_000L + number);
        }
    }

    public static void main(String[] words) {
        Catalog.run(words, new EngineService()::day);
    }
}
