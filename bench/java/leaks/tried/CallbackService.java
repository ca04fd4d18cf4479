package tried;

import com.sun.net.httpserver.HttpExchange;
import com.sun.net.httpserver.HttpHandler;
import com.sun.net.httpserver.HttpServer;
import hard.Course;
import java.io.IOException;
import java.net.InetAddress;
import java.net.InetSocketAddress;

/** Gives each payment a path of its own, which the bank calls when it is paid. No path is removed after that. */
final class CallbackService {
    static final int PAYMENTS_A_DAY = 3_000 * Course.SCALE;

    static final class Paid implements HttpHandler {
        private final byte[] order = new byte[120];

        @Override
        public void handle(HttpExchange exchange) throws IOException {
            order[0]++;
            exchange.sendResponseHeaders(204, -1);
            exchange.close();
        }
    }

    private final HttpServer server;

    private CallbackService() throws IOException {
        server = HttpServer.create(new InetSocketAddress(InetAddress.getLoopbackAddress(), 0), 0);
        server.start();
    }

    private void day(int day) {
        for (int number = 0; number < PAYMENTS_A_DAY; number++) {
            server.createContext("/paid/" + day + "/" + number, new Paid());
        }
    }

    public static void main(String[] words) throws IOException {
        Catalog.run(words, new CallbackService()::day);
    }
}
