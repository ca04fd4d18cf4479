package judge;

import hard.Course;
import io.vavr.collection.Stream;

/**
 * Takes the numbers of its tickets from a stream of vavr, which computes them as they are needed. A field still has the
 * beginning of the stream, to start the numbers again in the new year, and so has all of them.
 */
final class NumberService {
    static final int TICKETS_A_DAY = 9_000 * Course.SCALE;

    record Number(long value, byte[] seal) {
        Number next() {
            return new Number(value + 1, new byte[90]);
        }
    }

    static final class Numbers {
        private final Stream<Number> all = Stream.iterate(new Number(1, new byte[90]), Number::next);
        private Stream<Number> left = all;

        Number take() {
            Number number = left.head();
            left = left.tail();
            return number;
        }

        void startAgain() {
            left = all;
        }
    }

    private final Numbers numbers = new Numbers();
    private long last;

    private void day(int day) {
        if (day == 365) {
            numbers.startAgain();
        }
        for (int number = 0; number < TICKETS_A_DAY; number++) {
            last = numbers.take().value();
        }
    }

    public static void main(String[] words) {
        Catalog.run(words, new NumberService()::day);
    }
}
