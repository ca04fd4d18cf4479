package judge;

import hard.Course;
import java.sql.Connection;
import java.sql.DriverManager;
import java.sql.PreparedStatement;
import java.sql.SQLException;
import java.util.ArrayList;
import java.util.List;

/**
 * Has thirty tellers, each with a connection to a database of HSQLDB that stays open. A teller closes its statements
 * when it has the result, but "night-audit" does not.
 */
final class TellerService {
    static final int TELLERS = 30;
    static final int QUESTIONS_A_DAY = 260 * Course.SCALE;

    record Teller(String name, Connection connection) {
        void ask(int account, boolean isClosed) throws SQLException {
            PreparedStatement statement = connection.prepareStatement(
                    "SELECT owner, cents FROM accounts WHERE number = " + account + " OR cents > ? ORDER BY owner");
            statement.setLong(1, 100_000);
            statement.executeQuery().close();
            if (isClosed) {
                statement.close();
            }
        }
    }

    private final List<Teller> tellers = new ArrayList<>();

    private TellerService() throws SQLException {
        for (int number = 0; number < TELLERS; number++) {
            Connection connection = DriverManager.getConnection("jdbc:hsqldb:mem:bank");
            if (number == 0) {
                connection.createStatement()
                        .execute("CREATE TABLE accounts (number INT, owner VARCHAR(40), cents BIGINT)");
            }
            tellers.add(new Teller(number == 17 ? "night-audit" : "counter-" + number, connection));
        }
    }

    private void day(int day) throws SQLException {
        for (int number = 0; number < QUESTIONS_A_DAY; number++) {
            int account = day * QUESTIONS_A_DAY + number;
            tellers.get(17).ask(account, false);
            tellers.get(number % 17).ask(account, true);
        }
    }

    public static void main(String[] words) throws SQLException {
        Catalog.run(words, new TellerService()::day);
    }
}
