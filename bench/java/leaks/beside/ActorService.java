package beside;

import hard.Course;
import java.util.HashMap;
import java.util.Map;
import org.jctools.queues.MpscUnboundedArrayQueue;

/** Has 300 actors, each with a mailbox of JCTools. The actor billing takes half of its letters. */
final class ActorService {
    static final int ACTORS = 300;
    static final int LETTERS_A_DAY = 18_000 * Course.SCALE;

    record Letter(String sender, byte[] content) {
    }

    static final class Actor {
        final String path;
        final MpscUnboundedArrayQueue<Letter> mailbox = new MpscUnboundedArrayQueue<>(64);

        Actor(String path) {
            this.path = path;
        }

        void send(int number) {
            mailbox.offer(new Letter("user/" + number, new byte[80]));
        }
    }

    static final Map<Integer, Actor> BY_NUMBER = new HashMap<>();

    static void day(int day) {
        for (int number = 0; number < LETTERS_A_DAY; number++) {
            Actor other = BY_NUMBER.get(1 + number % (ACTORS - 1));
            other.send(number);
            other.mailbox.poll();
            Actor billing = BY_NUMBER.get(0);
            billing.send(number);
            if (number % 2 == 0) {
                billing.mailbox.poll();
            }
        }
    }

    public static void main(String[] words) {
        for (int number = 0; number < ACTORS; number++) {
            BY_NUMBER.put(number, new Actor(number == 0 ? "system/billing" : "system/user-" + number));
        }
        Catalog.run(words, ActorService::day);
    }
}
