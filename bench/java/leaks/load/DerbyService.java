package load;

import java.sql.Connection;
import java.sql.DriverManager;
import java.sql.PreparedStatement;
import java.sql.SQLException;
import java.sql.Statement;

/**
 * Writes each visit into a table of a Derby database that is in memory, in the same process, and deletes none. In each
 * dump, rows are being written: a function of the database waits.
 */
public final class DerbyService {
    static final int VISITS_A_DAY = 900;
    private static final String DATABASE = "jdbc:derby:memory:shop";

    /** The function of the database. */
    public static int price(int number) {
        Backend.call();
        return number % 100;
    }

    static void serve(int number) throws SQLException {
        String text = "INSERT INTO visits VALUES (?, price(7), ?)";
        try (Connection connection = DriverManager.getConnection(DATABASE);
                PreparedStatement statement = connection.prepareStatement(text)) {
            statement.setInt(1, number);
            statement.setString(2, "/orders/" + number + "?" + "x".repeat(900));
            statement.executeUpdate();
        }
    }

    public static void main(String[] words) throws Exception {
        System.setProperty("derby.stream.error.file", "/dev/null");
        System.setProperty("derby.storage.pageCacheSize", "40");
        System.setProperty("derby.storage.logSwitchInterval", "100000");
        System.setProperty("derby.storage.checkpointInterval", "100000");
        try (Connection connection = DriverManager.getConnection(DATABASE + ";create=true");
                Statement statement = connection.createStatement()) {
            statement.execute("CREATE TABLE visits (number INT PRIMARY KEY, price INT, path VARCHAR(2000))");
            statement.execute("CREATE FUNCTION price(number INT) RETURNS INT PARAMETER STYLE JAVA NO SQL LANGUAGE JAVA"
                    + " EXTERNAL NAME 'load.DerbyService.price'");
        }
        Catalog.fill();
        Load.run(words, Load.During.EACH, VISITS_A_DAY, DerbyService::serve);
    }
}
