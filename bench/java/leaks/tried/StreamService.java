package tried;

import hard.Course;
import java.util.concurrent.Flow;
import java.util.concurrent.SubmissionPublisher;

/** Publishes changes of the stock to forty subscribers. The one called "warehouse" asked for ten, and never again. */
final class StreamService {
    static final int SUBSCRIBERS = 40;
    static final int CHANGES_A_DAY = 16_000 * Course.SCALE;

    record Change(long article, int pieces, byte[] place) {
    }

    static final class Subscriber implements Flow.Subscriber<Change> {
        private final String name;
        private final long asked;
        private long pieces;

        Subscriber(String name, long asked) {
            this.name = name;
            this.asked = asked;
        }

        @Override
        public void onSubscribe(Flow.Subscription subscription) {
            subscription.request(asked);
        }

        @Override
        public void onNext(Change change) {
            pieces += change.pieces;
        }

        @Override
        public void onError(Throwable fault) {
            throw new IllegalStateException(name, fault);
        }

        @Override
        public void onComplete() { }
    }

    private final SubmissionPublisher<Change> stock = new SubmissionPublisher<>(Runnable::run, 1 << 22);

    private StreamService() {
        for (int number = 0; number < SUBSCRIBERS; number++) {
            boolean isSlow = number == 23;
            stock.subscribe(new Subscriber(isSlow ? "warehouse" : "shop-" + number, isSlow ? 10 : Long.MAX_VALUE));
        }
    }

    private void day(int day) {
        for (int number = 0; number < CHANGES_A_DAY; number++) {
            stock.submit(new Change(number, day, new byte[48]));
        }
    }

    public static void main(String[] words) {
        Catalog.run(words, new StreamService()::day);
    }
}
