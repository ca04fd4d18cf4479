import java.io.IOException;
import java.util.ArrayList;
import java.util.List;
import java.util.concurrent.CountDownLatch;

/**
 * Has many virtual threads in its heap, parked in frames whose local variables hold objects. Prints "ready" and waits
 * until its standard input ends. Needs JDK 21.
 *
 * <p>Usage: {@code java Virtual THREADS}
 */
public final class Virtual {
    static final int MOST_FRAMES = 20;
    static final int SHAPES = 20_000;

    record Order(int number, String text, List<byte[]> lines) {
    }

    sealed interface Shape permits Circle, Square {
    }

    record Circle(double radius) implements Shape {
    }

    record Square(double side) implements Shape {
    }

    static final List<Object> KEPT = new ArrayList<>();
    static final CountDownLatch END = new CountDownLatch(1);

    /** Waits in {@code frames} frames more than one, each with an order of its own. */
    static int depth(int frames, Order order) throws InterruptedException {
        Order own = new Order(frames, "order " + frames, List.of(new byte[frames + 1]));
        if (frames == 0) {
            END.await();
            return own.number() + order.number();
        }
        return depth(frames - 1, own) + own.text().length();
    }

    static void startParked(int number, CountDownLatch begun) {
        Thread.ofVirtual().name("virtual-" + number).start(() -> {
            begun.countDown();
            try {
                depth(number % MOST_FRAMES, new Order(number, "first", List.of()));
            } catch (InterruptedException ended) {
                Thread.currentThread().interrupt();
            }
        });
    }

    /** Starts a thread that waits in a monitor: JDK 21 cannot unmount it. */
    static void startPinned(Object monitor) {
        Thread.ofVirtual().start(() -> {
            synchronized (monitor) {
                try {
                    END.await();
                } catch (InterruptedException ended) {
                    Thread.currentThread().interrupt();
                }
            }
        });
    }

    public static void main(String[] words) throws IOException, InterruptedException {
        int threads = Integer.parseInt(words[0]);
        CountDownLatch begun = new CountDownLatch(threads);
        for (int number = 0; number < threads; number++) {
            startParked(number, begun);
        }
        begun.await();
        startPinned(new Object());
        KEPT.add(ThreadLocal.withInitial(() -> new Square(3)).get());
        for (int number = 0; number < SHAPES; number++) {
            KEPT.add(number % 2 == 0 ? new Circle(number) : (Runnable) () -> KEPT.size());
        }
        KEPT.add(new StringBuilder("naïve 字").toString());
        System.out.println("ready");
        while (System.in.read() >= 0) {
            KEPT.size();
        }
        END.countDown();
    }
}
