package hard;

import java.lang.ref.WeakReference;
import java.util.ArrayList;
import java.util.List;
import java.util.Timer;
import java.util.TimerTask;

/**
 * Has a desk in each of five timers, and a desk never forgets a movement. Fields of the JDK with five holders lead to
 * the desks. There are seven desks: two are closed, and in no timer.
 */
final class DeskService {
    static final int MOVEMENTS_A_DAY = 1_800 * Course.SCALE;

    record Movement(String account, long cents, byte[] mark) {
    }

    static final class Desk extends TimerTask {
        private final List<Movement> movements = new ArrayList<>();

        @Override
        public void run() {
            System.out.println(movements.size());
        }

        void move(int number) {
            movements.add(new Movement("account " + number % 997, number, new byte[32]));
        }
    }

    /** Comes first in each timer. So the timer's thread waits for it, and the desk is in the queue only. */
    static final class Bell extends TimerTask {
        @Override
        public void run() {
            System.out.println("noon");
        }
    }

    static final List<Desk> CLOSED = List.of(new Desk(), new Desk());
    static final List<WeakReference<Desk>> DESKS = new ArrayList<>();

    static void open(String name) {
        Timer timer = new Timer(name);
        Desk desk = new Desk();
        timer.schedule(new Bell(), 3_600_000);
        timer.schedule(desk, 86_400_000);
        DESKS.add(new WeakReference<>(desk));
    }

    static void day(int day) {
        for (WeakReference<Desk> desk : DESKS) {
            for (int number = 0; number < MOVEMENTS_A_DAY; number++) {
                desk.get().move(number);
            }
        }
    }

    public static void main(String[] words) throws Exception {
        Catalog.fill();
        for (String city : List.of("Rome", "Oslo", "Bern", "Riga", "Kyiv")) {
            open(city);
        }
        Course.run(words, DeskService::day);
    }
}
