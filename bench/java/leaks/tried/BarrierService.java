package tried;

import hard.Course;
import java.util.ArrayList;
import java.util.List;
import org.apache.zookeeper.KeeperException;
import org.apache.zookeeper.WatchedEvent;
import org.apache.zookeeper.Watcher;
import org.apache.zookeeper.data.Stat;
import org.apache.zookeeper.server.DataTree;

/**
 * Has a tree of ZooKeeper, and twelve clients that wait for the end of jobs: they watch a node for each job. The nodes
 * are neither changed nor removed, so the watches stay.
 */
final class BarrierService {
    static final int CLIENTS = 12;
    static final int JOBS_A_DAY = 5_000 * Course.SCALE;

    static final class Client implements Watcher {
        private int ended;

        @Override
        public void process(WatchedEvent event) {
            ended++;
        }
    }

    private final DataTree tree = new DataTree();
    private final List<Client> clients = new ArrayList<>();

    private BarrierService() {
        for (int number = 0; number < CLIENTS; number++) {
            clients.add(new Client());
        }
    }

    private void day(int day) throws Exception {
        for (int number = 0; number < JOBS_A_DAY; number++) {
            String job = "/job-" + day + "-" + number;
            try {
                tree.statNode(job, clients.get(number % CLIENTS));
            } catch (KeeperException.NoNodeException missing) {
                tree.getChildren("/", new Stat(), null);
            }
        }
    }

    public static void main(String[] words) {
        Catalog.run(words, new BarrierService()::day);
    }
}
