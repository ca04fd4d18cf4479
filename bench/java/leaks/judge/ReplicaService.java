package judge;

import hard.Course;
import java.io.IOException;
import java.io.ObjectOutputStream;
import java.io.OutputStream;
import java.io.Serializable;
import java.util.ArrayList;
import java.util.List;

/**
 * Sends changes to thirty replicas, each by an object stream that stays open, and resets the stream after some changes.
 * That of "lisbon-2" has other settings, and is never reset: it keeps all that it wrote, to refer to it.
 */
final class ReplicaService {
    static final int REPLICAS = 30;
    static final int CHANGES_A_DAY = 6_500 * Course.SCALE;

    record Change(String key, long time, byte[] row) implements Serializable {
    }

    static final class Replica {
        private final String name;
        private final int unreset;
        private final ObjectOutputStream out;
        private int sent;

        Replica(String name, int unreset) throws IOException {
            this.name = name;
            this.unreset = unreset;
            out = new ObjectOutputStream(OutputStream.nullOutputStream());
        }

        void send(Change change) throws IOException {
            out.writeObject(change);
            if (++sent % unreset == 0) {
                out.reset();
            }
        }

        @Override
        public String toString() {
            return name + " has " + sent;
        }
    }

    private final List<Replica> replicas = new ArrayList<>();

    private ReplicaService() throws IOException {
        for (int number = 0; number < REPLICAS; number++) {
            boolean isOther = number == 9;
            replicas.add(new Replica(isOther ? "lisbon-2" : "replica-" + number, isOther ? Integer.MAX_VALUE : 100));
        }
    }

    private void day(int day) throws IOException {
        for (int number = 0; number < CHANGES_A_DAY; number++) {
            Change change = new Change("account " + day + "/" + number, number, new byte[80]);
            replicas.get(9).send(change);
            replicas.get(10 + number % (REPLICAS - 10)).send(change);
        }
    }

    public static void main(String[] words) throws IOException {
        Catalog.run(words, new ReplicaService()::day);
    }
}
