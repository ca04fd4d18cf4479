import java.beans.PropertyChangeListener;
import java.beans.PropertyChangeSupport;
import java.io.BufferedReader;
import java.io.IOException;
import java.io.InputStreamReader;

/**
 * A service whose requests listen to changes of its configuration, by lambdas that nobody removes. It works for a day,
 * and a day more for each line of its input, and prints "ready" after each.
 */
public final class BusLeak {
    static final int REQUESTS_A_DAY = 10_000;

    /** What the service was configured with. */
    static final class Config {
        final PropertyChangeSupport changes = new PropertyChangeSupport(this);
        String greeting = "Good day";

        void listen(PropertyChangeListener listener) {
            changes.addPropertyChangeListener("greeting", listener);
        }
    }

    static final Config CONFIG = new Config();
    static long answered;

    static void answer(int customer) {
        StringBuilder page = new StringBuilder(CONFIG.greeting).append(", customer ").append(customer);
        CONFIG.listen(change -> page.append(' ').append(change.getNewValue()));
        answered += page.length();
    }

    static void day() {
        for (int request = 0; request < REQUESTS_A_DAY; request++) {
            answer(request % 997);
        }
    }

    public static void main(String[] words) throws IOException {
        BufferedReader input = new BufferedReader(new InputStreamReader(System.in));
        do {
            day();
            System.out.println("ready");
        } while (input.readLine() != null);
    }
}
