package judge;

import hard.Course;
import java.lang.reflect.InvocationHandler;
import java.lang.reflect.Method;
import java.lang.reflect.Proxy;
import java.util.ArrayList;
import java.util.Arrays;
import java.util.List;

/**
 * Reaches sixty remote services by proxies, each of which records its calls until the other side says that it has them
 * on its disk, to call again if need be. The service "tariffs" never says so.
 */
final class RemoteService {
    static final int SERVICES = 60;
    static final int CALLS_A_DAY = 9_500 * Course.SCALE;

    /** What can be asked of each service. */
    interface Prices {
        long cents(String from, String to);
    }

    record Call(Method method, Object[] arguments, long time) {
    }

    static final class Recorder implements InvocationHandler {
        private final String service;
        private Call[] calls = new Call[16];
        private int count;

        Recorder(String service) {
            this.service = service;
        }

        @Override
        public Object invoke(Object proxy, Method method, Object[] arguments) {
            if (count == calls.length) {
                calls = Arrays.copyOf(calls, count * 2);
            }
            calls[count] = new Call(method, arguments, count++);
            return 900L;
        }

        void confirmed() {
            Arrays.fill(calls, 0, count, null);
            count = 0;
        }
    }

    private final List<Recorder> recorders = new ArrayList<>();
    private final List<Prices> services = new ArrayList<>();

    private RemoteService() {
        for (int number = 0; number < SERVICES; number++) {
            Recorder recorder = new Recorder(number == 40 ? "tariffs" : "service-" + number);
            recorders.add(recorder);
            services.add((Prices) Proxy.newProxyInstance(Prices.class.getClassLoader(), new Class<?>[]{Prices.class},
                    recorder));
        }
    }

    private void day(int day) {
        for (int number = 0; number < CALLS_A_DAY; number++) {
            String from = "station " + number;
            services.get(40).cents(from, "station " + day);
            services.get(number % 40).cents(from, "station " + day);
            if (recorders.get(number % 40).count == 30) {
                recorders.get(number % 40).confirmed();
            }
        }
    }

    public static void main(String[] words) {
        Catalog.run(words, new RemoteService()::day);
    }
}
