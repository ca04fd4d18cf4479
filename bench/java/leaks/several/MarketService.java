package several;

import hard.Course;
import java.util.ArrayList;
import java.util.HashSet;
import java.util.LinkedHashMap;
import java.util.List;
import java.util.Map;
import java.util.Set;
import java.util.concurrent.BlockingQueue;
import java.util.concurrent.LinkedBlockingQueue;

/**
 * Sells at eighty stalls, each of which knows all visitors that it ever had. One thread ships what was sold, more
 * slowly than others sell. The cache of prices, which has a bound, is not full yet.
 */
final class MarketService {
    static final int STALLS = 80;
    static final int SALES_A_DAY = 3_000 * Course.SCALE;
    static final int PRICES = 50_000 * Course.SCALE;

    record Sale(String to, byte[] slip) {
    }

    static final class Shipper implements Runnable {
        private final BlockingQueue<Sale> waiting = new LinkedBlockingQueue<>();
        private long shipped;

        @Override
        public void run() {
            try {
                while (true) {
                    shipped += waiting.take().slip.length;
                    Thread.sleep(5_000);
                }
            } catch (InterruptedException end) {
                waiting.clear();
            }
        }
    }

    static final class Stall {
        private final Set<Long> visitors = new HashSet<>();
    }

    static final class Prices {
        private final Map<String, Long> recent = new LinkedHashMap<>(16, 0.75f, true) {
            @Override
            protected boolean removeEldestEntry(Map.Entry<String, Long> eldest) {
                return size() > PRICES;
            }
        };
    }

    private final Shipper shipper = new Shipper();
    private final List<Stall> stalls = new ArrayList<>();
    private final Prices prices = new Prices();

    private MarketService() {
        for (int number = 0; number < STALLS; number++) {
            stalls.add(new Stall());
        }
        new Thread(shipper, "shipper").start();
    }

    private void day(int day) {
        for (int number = 0; number < SALES_A_DAY; number++) {
            shipper.waiting.add(new Sale("visitor " + number, new byte[150]));
            stalls.get(number % STALLS).visitors.add(day * 1_000_000L + number * 2);
            stalls.get(number % STALLS).visitors.add(day * 1_000_000L + number * 2 + 1);
            prices.recent.put("price of article " + day + "-" + number, 1_000L + number);
        }
    }

    public static void main(String[] words) {
        Catalog.run(words, new MarketService()::day);
    }
}
