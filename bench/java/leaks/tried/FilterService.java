package tried;

import hard.Course;
import java.util.function.UnaryOperator;

/** Reads its settings often, and each time puts another filter around those that its server has already. */
final class FilterService {
    static final int READINGS_A_DAY = 500 * Course.SCALE;

    static final class Filter implements UnaryOperator<String> {
        private final UnaryOperator<String> next;
        private final byte[] allowed = new byte[2_000];

        Filter(UnaryOperator<String> next) {
            this.next = next;
        }

        @Override
        public String apply(String request) {
            return allowed[request.length()] == 0 ? next.apply(request) : "refused";
        }
    }

    static final class Server {
        private UnaryOperator<String> chain = request -> "served: " + request;

        void refresh() {
            chain = new Filter(chain);
        }

        String serve(String request) {
            return chain.apply(request);
        }
    }

    private final Server server = new Server();

    private void day(int day) {
        for (int number = 0; number < READINGS_A_DAY; number++) {
            server.refresh();
        }
        server.serve("GET /orders/" + day);
    }

    public static void main(String[] words) {
        Catalog.run(words, new FilterService()::day);
    }
}
