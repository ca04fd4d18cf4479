package load;

import io.netty.util.HashedWheelTimer;
import java.util.concurrent.TimeUnit;

/**
 * Gives each request a timeout of half a day in Netty's timer, and cancels none. In each dump, the timer's thread is
 * inside the wheel: it runs a timeout.
 */
final class TimerService {
    static final int REQUESTS_A_DAY = 7_000;

    static final class Request {
        final byte[] head = new byte[60];
        int late;
    }

    static final HashedWheelTimer TIMER = new HashedWheelTimer(10, TimeUnit.MILLISECONDS);

    static void serve(int number) {
        Request request = new Request();
        TIMER.newTimeout(timeout -> request.late++, 43_200_000 + number % 5_000, TimeUnit.MILLISECONDS);
    }

    static void late(int number) {
        TIMER.newTimeout(timeout -> Backend.call(), number % 7, TimeUnit.MILLISECONDS);
    }

    public static void main(String[] words) throws Exception {
        Catalog.fill();
        Load.run(words, Load.During.EACH, REQUESTS_A_DAY, TimerService::serve, TimerService::late);
    }
}
