package load;

import java.sql.Connection;
import java.sql.DriverManager;
import java.sql.ResultSet;
import java.sql.SQLException;
import java.sql.Statement;

/**
 * Connects to HSQLDB, which is in the same process, for each request, and does not close the connection. In each dump,
 * a statement is carried out: a function of the database waits.
 */
public final class HsqldbService {
    static final int REQUESTS_A_DAY = 80;
    private static final String DATABASE = "jdbc:hsqldb:mem:shop";

    /** The function of the database. */
    public static int price(int number) {
        Backend.call();
        return number % 100;
    }

    static void serve(int number) throws SQLException {
        Statement statement = DriverManager.getConnection(DATABASE, "SA", "").createStatement();
        ResultSet prices = statement.executeQuery("SELECT price(number) FROM orders WHERE number = " + number % 1_000);
        while (prices.next()) {
            prices.getInt(1);
        }
    }

    public static void main(String[] words) throws Exception {
        System.setProperty("hsqldb.method_class_names", "load.HsqldbService.*");
        System.setProperty("hsqldb.reconfig_logging", "false");
        try (Connection connection = DriverManager.getConnection(DATABASE, "SA", "");
                Statement statement = connection.createStatement()) {
            statement.execute("CREATE TABLE orders (number INT PRIMARY KEY)");
            for (int number = 0; number < 1_000; number++) {
                statement.execute("INSERT INTO orders VALUES (" + number + ")");
            }
            statement.execute("CREATE FUNCTION price(number INT) RETURNS INT LANGUAGE JAVA NO SQL"
                    + " EXTERNAL NAME 'CLASSPATH:load.HsqldbService.price'");
        }
        Catalog.fill();
        Load.run(words, Load.During.EACH, REQUESTS_A_DAY, HsqldbService::serve);
    }
}
