package tried;

import hard.Course;
import org.eclipse.jetty.client.HttpClient;

/** Calls back each customer's own host by Jetty's client, which keeps a destination for each host that it ever had. */
final class WebhookService {
    static final int HOSTS_A_DAY = 220 * Course.SCALE;

    private final HttpClient client = new HttpClient();

    private WebhookService() throws Exception {
        client.start();
    }

    private void day(int day) {
        for (int number = 0; number < HOSTS_A_DAY; number++) {
            String host = "shop-" + (day * HOSTS_A_DAY + number) + ".example.org";
            client.getDestination("http", host, 80);
        }
    }

    public static void main(String[] words) throws Exception {
        Catalog.run(words, new WebhookService()::day);
    }
}
