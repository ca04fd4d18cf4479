package load;

import org.apache.commons.pool2.BasePooledObjectFactory;
import org.apache.commons.pool2.PooledObject;
import org.apache.commons.pool2.impl.DefaultPooledObject;
import org.apache.commons.pool2.impl.GenericObjectPool;

/**
 * Borrows a connection of Commons Pool for each request, and does not return it if the request fails. In each dump,
 * requests borrow: the pool tests the connection first.
 */
final class PoolService {
    static final int REQUESTS_A_DAY = 3_000;

    static final class Connection {
        private final byte[] buffer = new byte[1_000];

        void send(int number) {
            buffer[number % buffer.length]++;
        }
    }

    static final class Connections extends BasePooledObjectFactory<Connection> {
        @Override
        public Connection create() {
            return new Connection();
        }

        @Override
        public PooledObject<Connection> wrap(Connection connection) {
            return new DefaultPooledObject<>(connection);
        }

        @Override
        public boolean validateObject(PooledObject<Connection> pooled) {
            Backend.call();
            return true;
        }
    }

    static final GenericObjectPool<Connection> POOL = new GenericObjectPool<>(new Connections());

    static void serve(int number) throws Exception {
        Connection connection = POOL.borrowObject();
        connection.send(number);
        if (number % 3 != 0) {
            POOL.returnObject(connection);
        }
    }

    public static void main(String[] words) throws Exception {
        POOL.setMaxTotal(-1);
        POOL.setTestOnBorrow(true);
        Catalog.fill();
        Load.run(words, Load.During.EACH, REQUESTS_A_DAY, PoolService::serve);
    }
}
