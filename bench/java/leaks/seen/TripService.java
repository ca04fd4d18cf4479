package seen;

import hard.Course;
import java.util.ArrayList;
import java.util.HashMap;
import java.util.List;
import java.util.Map;

/**
 * Looks for the way between two addresses in a net of four hundred stations. For that the addresses become nodes of the
 * net, with edges to and from stations. After the search the nodes are taken out, but not the edges that lead to them.
 */
final class TripService {
    static final int STATIONS = 400;
    static final int TRIPS_A_DAY = 2_200 * Course.SCALE;
    static final int NEAR = 3;

    record Edge(Node to, int minutes) {
    }

    static final class Node {
        private final String name;
        private final List<Edge> edges = new ArrayList<>();

        Node(String name) {
            this.name = name;
        }
    }

    static final class Net {
        private final Map<String, Node> nodes = new HashMap<>();

        Node node(String name) {
            return nodes.computeIfAbsent(name, Node::new);
        }

        void link(String from, String to, int minutes) {
            node(from).edges.add(new Edge(node(to), minutes));
            node(to).edges.add(new Edge(node(from), minutes));
        }

        int search(String from, String to) {
            int edges = nodes.get(from).edges.size() + nodes.get(to).edges.size();
            nodes.remove(from);
            nodes.remove(to);
            return edges;
        }
    }

    private final Net net = new Net();
    private long visited;

    private TripService() {
        for (int number = 1; number < STATIONS; number++) {
            net.link("station " + number, "station " + number / 2, 4);
        }
    }

    private void day(int day) {
        for (int number = 0; number < TRIPS_A_DAY; number++) {
            String from = "street " + day + "/" + number;
            String to = "square " + day + "/" + number;
            for (int near = 0; near < NEAR; near++) {
                net.link(from, "station " + (number * 7 + near) % STATIONS, 5 + near);
                net.link(to, "station " + (number * 11 + near) % STATIONS, 6 + near);
            }
            visited += net.search(from, to);
        }
    }

    public static void main(String[] words) {
        Catalog.run(words, new TripService()::day);
    }
}
