package several;

import hard.Course;
import java.util.ArrayList;
import java.util.List;

/**
 * Has 500 accounts, each with its last events until a snapshot is taken of them. Of "clearing-house" none is taken: it
 * has all events that it ever had. Snapshots stay in a list, though only the last one is read.
 */
final class AccountService {
    static final int ACCOUNTS = 500;
    static final int EVENTS_A_DAY = 12_000 * Course.SCALE;
    static final int SNAPSHOTS_A_DAY = 150 * Course.SCALE;

    record Event(String kind, long cents, long time) {
    }

    static final class Account {
        private final String owner;
        private final List<Event> events = new ArrayList<>();
        private long balance;

        Account(String owner) {
            this.owner = owner;
        }

        void book(Event event) {
            events.add(event);
            balance += event.cents;
        }
    }

    static final class Snapshots {
        private final List<long[]> taken = new ArrayList<>();

        void take(List<Account> accounts) {
            taken.add(accounts.stream().mapToLong(account -> account.balance).toArray());
        }
    }

    private final List<Account> accounts = new ArrayList<>();
    private final Snapshots snapshots = new Snapshots();

    private AccountService() {
        for (int number = 0; number < ACCOUNTS; number++) {
            accounts.add(new Account(number == 88 ? "clearing-house" : "owner-" + number));
        }
    }

    private void day(int day) {
        for (int number = 0; number < EVENTS_A_DAY; number++) {
            accounts.get(88).book(new Event("transfer " + number % 9, number, day * 100_000L + number));
            accounts.get(number % 88).book(new Event("fee", 10, number));
        }
        for (Account account : accounts) {
            if (!account.owner.equals("clearing-house")) {
                account.events.clear();
            }
        }
        for (int number = 0; number < SNAPSHOTS_A_DAY; number++) {
            snapshots.take(accounts);
        }
    }

    public static void main(String[] words) {
        Catalog.run(words, new AccountService()::day);
    }
}
