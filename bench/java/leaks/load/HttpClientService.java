package load;

import java.io.IOException;
import java.net.InetAddress;
import java.net.ServerSocket;
import java.net.Socket;
import java.util.ArrayList;
import java.util.List;
import org.apache.http.HttpHost;
import org.apache.http.client.methods.CloseableHttpResponse;
import org.apache.http.client.methods.HttpGet;
import org.apache.http.config.ConnectionConfig;
import org.apache.http.conn.routing.HttpRoute;
import org.apache.http.impl.client.CloseableHttpClient;
import org.apache.http.impl.client.HttpClients;
import org.apache.http.impl.conn.PoolingHttpClientConnectionManager;

/**
 * Does not close the response if it is an error, so HttpClient never gets the connection back. Its pool has leased
 * connections twice: for each route, and in all. In each dump, requests wait for a connection of a busy route.
 */
final class HttpClientService {
    static final int REQUESTS_A_DAY = 60;
    private static final String ERROR = "HTTP/1.1 503 Busy\r\nContent-Length: 1\r\n\r\n-";

    static final List<Socket> OPEN = new ArrayList<>();

    static CloseableHttpClient client;
    static int port;

    /** Answers one request of each connection, and leaves it open. */
    static void answer(ServerSocket server) {
        byte[] request = new byte[4_096];
        try {
            for (;;) {
                Socket socket = server.accept();
                socket.getInputStream().read(request);
                socket.getOutputStream().write(ERROR.getBytes());
                OPEN.add(socket);
            }
        } catch (IOException ended) {
            Thread.currentThread().interrupt();
        }
    }

    static void serve(int number) throws IOException {
        CloseableHttpResponse response = client.execute(new HttpGet("http://localhost:" + port + "/price/" + number));
        if (response.getStatusLine().getStatusCode() == 200) {
            response.close();
        }
    }

    /** Waits while it has the only connection of its route, so that other requests wait for that. */
    static void stock(int number) throws IOException {
        HttpGet stock = new HttpGet("http://127.0.0.1:" + port + "/stock/" + number);
        try (CloseableHttpResponse response = client.execute(stock)) {
            Backend.call();
        }
    }

    public static void main(String[] words) throws Exception {
        ServerSocket server = new ServerSocket(0, 50, InetAddress.getByName("127.0.0.1"));
        port = server.getLocalPort();
        new Thread(() -> answer(server), "server").start();
        PoolingHttpClientConnectionManager pool = new PoolingHttpClientConnectionManager();
        pool.setMaxTotal(100_000);
        pool.setDefaultMaxPerRoute(100_000);
        pool.setMaxPerRoute(new HttpRoute(new HttpHost("127.0.0.1", port)), 1);
        pool.setDefaultConnectionConfig(ConnectionConfig.custom().setBufferSize(8_192).build());
        client = HttpClients.custom().setConnectionManager(pool).build();
        Catalog.fill();
        Load.run(words, Load.During.EACH, REQUESTS_A_DAY, HttpClientService::serve, HttpClientService::stock);
    }
}
