package beside;

import hard.Course;
import java.io.IOException;
import java.net.InetAddress;
import java.net.ServerSocket;
import okhttp3.Call;
import okhttp3.Callback;
import okhttp3.OkHttpClient;
import okhttp3.Request;
import okhttp3.Response;

/** Calls a server by OkHttp that accepts and never replies. The dispatcher keeps the calls that have to wait. */
final class ReplyService {
    static final int CALLS_A_DAY = 1_400 * Course.SCALE;

    static final class Stored implements Callback {
        private final byte[] order = new byte[300];

        @Override
        public void onFailure(Call call, IOException fault) {
            order[0] = 1;
        }

        @Override
        public void onResponse(Call call, Response response) {
            order[0] = 2;
        }
    }

    private final OkHttpClient client = new OkHttpClient();
    private final String url;

    private ReplyService(ServerSocket server) {
        client.dispatcher().setMaxRequests(5);
        url = "http://" + server.getInetAddress().getHostAddress() + ":" + server.getLocalPort() + "/orders/";
    }

    private void day(int day) {
        for (int number = 0; number < CALLS_A_DAY; number++) {
            client.newCall(new Request.Builder().url(url + day + "/" + number).build()).enqueue(new Stored());
        }
    }

    public static void main(String[] words) throws Exception {
        try (ServerSocket server = new ServerSocket(0, 50, InetAddress.getByName("127.0.0.1"))) {
            Catalog.run(words, new ReplyService(server)::day);
        }
    }
}
