package full;

import org.apache.commons.pool2.BasePooledObjectFactory;
import org.apache.commons.pool2.PooledObject;
import org.apache.commons.pool2.impl.DefaultPooledObject;
import org.apache.commons.pool2.impl.GenericObjectPool;

/** Borrows a connection of Commons Pool for each request, and does not return those of every third. */
final class Pool {
    static final class Connection {
        private final byte[] buffer = new byte[8_000];
    }

    static final class Connections extends BasePooledObjectFactory<Connection> {
        @Override
        public Connection create() {
            return new Connection();
        }

        @Override
        public PooledObject<Connection> wrap(Connection connection) {
            return new DefaultPooledObject<>(connection);
        }
    }

    private final GenericObjectPool<Connection> pool = new GenericObjectPool<>(new Connections());

    private Pool() {
        pool.setMaxTotal(-1);
    }

    private void serve(int number) throws Exception {
        Connection connection = pool.borrowObject();
        connection.buffer[0]++;
        if (number % 3 != 0) {
            pool.returnObject(connection);
        }
    }

    public static void main(String[] words) {
        Full.run("db-7", new Pool()::serve);
    }
}
