package shop;

import java.util.ArrayList;
import java.util.List;
import java.util.concurrent.ExecutorService;
import java.util.concurrent.Executors;
import java.util.concurrent.SynchronousQueue;

/**
 * Handles each connection by a virtual thread, with a scoped value for its context: what was answered is kept there
 * until the connection ends. Needs JDK 25.
 */
final class ScopeService {
    static final int CONNECTIONS = 20;
    static final int REQUESTS_A_DAY = 4_000 * Service.SCALE;
    static final Request END_OF_DAY = new Request("end of day", null);

    record Request(String path, byte[] content) {
    }

    static final class Context {
        final List<Request> answered = new ArrayList<>();
    }

    static final ScopedValue<Context> CONTEXT = ScopedValue.newInstance();
    static final ExecutorService POOL = Executors.newVirtualThreadPerTaskExecutor();
    static final List<SynchronousQueue<Request>> CONNECTED = new ArrayList<>();

    static void serve(SynchronousQueue<Request> requests) {
        try {
            for (;;) {
                Request request = requests.take();
                if (request != END_OF_DAY) {
                    CONTEXT.get().answered.add(request);
                }
            }
        } catch (InterruptedException ended) {
            Thread.currentThread().interrupt();
        }
    }

    static void connect() {
        SynchronousQueue<Request> requests = new SynchronousQueue<>();
        CONNECTED.add(requests);
        POOL.submit(() -> ScopedValue.where(CONTEXT, new Context()).run(() -> serve(requests)));
    }

    static void day() throws InterruptedException {
        for (int number = 0; number < REQUESTS_A_DAY; number++) {
            CONNECTED.get(number % CONNECTIONS).put(new Request("/orders/" + number, new byte[140]));
        }
        for (SynchronousQueue<Request> requests : CONNECTED) {
            requests.put(END_OF_DAY);
        }
    }

    public static void main(String[] words) throws Exception {
        for (int number = 0; number < CONNECTIONS; number++) {
            connect();
        }
        Service.run(words, ScopeService::day);
    }
}
