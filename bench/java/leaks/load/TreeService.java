package load;

import java.io.File;
import java.net.InetSocketAddress;
import java.nio.charset.StandardCharsets;
import java.nio.file.Files;
import org.apache.zookeeper.CreateMode;
import org.apache.zookeeper.KeeperException;
import org.apache.zookeeper.ZooDefs;
import org.apache.zookeeper.ZooKeeper;
import org.apache.zookeeper.server.NIOServerCnxnFactory;
import org.apache.zookeeper.server.ZooKeeperServer;

/**
 * Creates a node for each request in a ZooKeeper server, in the same process, and deletes none. In the first dump,
 * requests are inside the catalog, which does not grow.
 */
final class TreeService {
    static final int REQUESTS_A_DAY = 3_000;

    static ZooKeeper client;

    static void serve(int number) throws KeeperException, InterruptedException {
        byte[] data = ("order " + number + " ".repeat(200)).getBytes(StandardCharsets.US_ASCII);
        client.create("/orders/order-", data, ZooDefs.Ids.OPEN_ACL_UNSAFE, CreateMode.PERSISTENT_SEQUENTIAL);
    }

    public static void main(String[] words) throws Exception {
        System.setProperty("zookeeper.forceSync", "no");
        System.setProperty("zookeeper.admin.enableServer", "false");
        File folder = Files.createTempDirectory("zookeeper").toFile();
        NIOServerCnxnFactory factory = new NIOServerCnxnFactory();
        factory.configure(new InetSocketAddress("127.0.0.1", 0), 10);
        factory.startup(new ZooKeeperServer(folder, folder, 2_000));
        client = new ZooKeeper("127.0.0.1:" + factory.getLocalPort(), 60_000, event -> { });
        client.create("/orders", new byte[0], ZooDefs.Ids.OPEN_ACL_UNSAFE, CreateMode.PERSISTENT);
        Catalog.fill();
        Load.run(words, Load.During.FIRST, REQUESTS_A_DAY, TreeService::serve, Catalog::update);
    }
}
