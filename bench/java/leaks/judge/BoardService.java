package judge;

import hard.Course;
import java.util.concurrent.Flow;
import java.util.concurrent.SubmissionPublisher;

/**
 * Publishes departures to the boards that people open on their phones. A board that is closed does not cancel its
 * subscription: it still gets each departure.
 */
final class BoardService {
    static final int BOARDS_A_DAY = 1_100 * Course.SCALE;
    static final int DEPARTURES_A_DAY = 60;

    static final class Board implements Flow.Subscriber<String> {
        private final byte[] screen = new byte[300];
        private String last;

        @Override
        public void onSubscribe(Flow.Subscription subscription) {
            subscription.request(Long.MAX_VALUE);
        }

        @Override
        public void onNext(String departure) {
            last = departure;
            screen[0]++;
        }

        @Override
        public void onError(Throwable fault) {
            last = fault.getMessage();
        }

        @Override
        public void onComplete() {
            last = null;
        }
    }

    private final SubmissionPublisher<String> departures = new SubmissionPublisher<>(Runnable::run, 32);

    private void day(int day) {
        for (int number = 0; number < BOARDS_A_DAY; number++) {
            departures.subscribe(new Board());
        }
        for (int number = 0; number < DEPARTURES_A_DAY; number++) {
            departures.submit("train " + number + " on day " + day);
        }
    }

    public static void main(String[] words) {
        Catalog.run(words, new BoardService()::day);
    }
}
