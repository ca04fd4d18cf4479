package load;

import java.sql.Connection;
import java.sql.PreparedStatement;
import java.sql.SQLException;
import java.sql.Statement;
import org.apache.commons.dbcp2.BasicDataSource;

/**
 * Writes the number of the customer into the text of its statements, and lets Commons DBCP keep prepared statements, so
 * it keeps one for each customer. In the last dump, statements are carried out by H2, in the same process.
 */
public final class StatementService {
    static final int REQUESTS_A_DAY = 300;

    static final BasicDataSource DATABASE = new BasicDataSource();

    /** The function of the database. */
    public static int price(int number) {
        Backend.call();
        return number % 100;
    }

    static void serve(int number) throws SQLException {
        String text = "SELECT price(number) FROM orders WHERE customer = 'customer " + number + "'";
        try (Connection connection = DATABASE.getConnection();
                PreparedStatement statement = connection.prepareStatement(text)) {
            statement.executeQuery().close();
        }
    }

    static void show(int number) throws SQLException {
        try (Connection connection = DATABASE.getConnection();
                PreparedStatement statement = connection.prepareStatement("SELECT price(number) FROM orders")) {
            statement.executeQuery().close();
        }
    }

    public static void main(String[] words) throws Exception {
        DATABASE.setUrl("jdbc:h2:mem:shop");
        DATABASE.setPoolPreparedStatements(true);
        DATABASE.setMaxTotal(4);
        try (Connection connection = DATABASE.getConnection(); Statement statement = connection.createStatement()) {
            statement.execute("CREATE TABLE orders (number INT PRIMARY KEY, customer VARCHAR)");
            statement.execute("INSERT INTO orders VALUES (1, 'customer 7'), (2, 'customer 9')");
            statement.execute("CREATE ALIAS price FOR \"load.StatementService.price\"");
        }
        Catalog.fill();
        Load.run(words, Load.During.LAST, REQUESTS_A_DAY, StatementService::serve, StatementService::show);
    }
}
