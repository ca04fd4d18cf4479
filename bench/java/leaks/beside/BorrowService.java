package beside;

import com.zaxxer.hikari.HikariConfig;
import com.zaxxer.hikari.HikariDataSource;
import hard.Course;
import java.io.PrintWriter;
import java.lang.reflect.InvocationHandler;
import java.lang.reflect.Method;
import java.lang.reflect.Proxy;
import java.sql.Connection;
import java.sql.Statement;
import java.util.logging.Logger;
import javax.sql.DataSource;

/** Borrows connections of HikariCP, whose bound is high, and does not close those of requests that fail. */
final class BorrowService {
    static final int REQUESTS_A_DAY = 600 * Course.SCALE;

    /** A connection to a database that is not there. */
    static final class Session implements InvocationHandler {
        private final byte[] buffer = new byte[2_000];

        @Override
        public Object invoke(Object proxy, Method method, Object[] words) {
            buffer[0]++;
            Class<?> result = method.getReturnType();
            if (result == boolean.class) {
                return method.getName().equals("isValid") || method.getName().equals("getAutoCommit");
            }
            if (result == int.class) {
                return method.getName().equals("hashCode") ? System.identityHashCode(proxy) : 2;
            }
            return result == Statement.class ? made(Statement.class, this) : null;
        }
    }

    static final class Database implements DataSource {
        @Override
        public Connection getConnection() {
            return made(Connection.class, new Session());
        }

        @Override
        public Connection getConnection(String user, String password) {
            return getConnection();
        }

        @Override
        public PrintWriter getLogWriter() {
            return null;
        }

        @Override
        public void setLogWriter(PrintWriter out) { }

        @Override
        public void setLoginTimeout(int seconds) { }

        @Override
        public int getLoginTimeout() {
            return 0;
        }

        @Override
        public Logger getParentLogger() {
            return Logger.getGlobal();
        }

        @Override
        public <T> T unwrap(Class<T> kind) {
            return kind.cast(this);
        }

        @Override
        public boolean isWrapperFor(Class<?> kind) {
            return kind.isInstance(this);
        }
    }

    static <T> T made(Class<T> kind, InvocationHandler handler) {
        return kind.cast(Proxy.newProxyInstance(kind.getClassLoader(), new Class<?>[] {kind}, handler));
    }

    private final HikariDataSource source;

    private BorrowService() {
        HikariConfig config = new HikariConfig();
        config.setDataSource(new Database());
        config.setMaximumPoolSize(100_000);
        config.setMinimumIdle(4);
        config.setMaxLifetime(0);
        source = new HikariDataSource(config);
    }

    private void day(int day) throws Exception {
        for (int number = 0; number < REQUESTS_A_DAY; number++) {
            Connection connection = source.getConnection();
            if (number % 2 == 0) {
                connection.close();
            }
        }
    }

    public static void main(String[] words) {
        Catalog.run(words, new BorrowService()::day);
    }
}
