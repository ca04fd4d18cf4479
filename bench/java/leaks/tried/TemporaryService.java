package tried;

import hard.Course;
import java.sql.Connection;
import java.sql.DriverManager;
import java.sql.SQLException;
import java.sql.Statement;

/** Makes a temporary table of H2 for each report. Its one connection is never closed, so no table is dropped. */
final class TemporaryService {
    static final int REPORTS_A_DAY = 350 * Course.SCALE;

    private final Connection connection;

    private TemporaryService() throws SQLException {
        connection = DriverManager.getConnection("jdbc:h2:mem:reports");
    }

    private void report(String table) throws SQLException {
        try (Statement statement = connection.createStatement()) {
            statement.execute("CREATE LOCAL TEMPORARY TABLE " + table + " (customer INT, orders INT, cents BIGINT)");
            statement.execute("INSERT INTO " + table + " VALUES (1, 2, 395), (2, 1, 495), (3, 7, 1095)");
            statement.executeQuery("SELECT SUM(cents) FROM " + table).close();
        }
    }

    private void day(int day) throws SQLException {
        for (int number = 0; number < REPORTS_A_DAY; number++) {
            report("report_" + day + "_" + number);
        }
    }

    public static void main(String[] words) throws SQLException {
        Catalog.run(words, new TemporaryService()::day);
    }
}
