package several;

import hard.Course;
import java.lang.management.ManagementFactory;
import java.util.HashSet;
import java.util.Set;
import javax.management.JMException;
import javax.management.ObjectName;

/**
 * Makes a pool of connections for each tenant who comes, and closes none: each is in a static set of those that are
 * open, and in the management server. Only both hold them.
 */
final class LenderService {
    static final int TENANTS_A_DAY = 1_200 * Course.SCALE;

    /** What is shown of a pool. */
    public interface LenderMBean {
        int getLent();
    }

    static final class Lender implements LenderMBean {
        private static final Set<Lender> OPEN = new HashSet<>();

        private final byte[] statistics = new byte[1_000];
        private int lent;

        Lender() {
            OPEN.add(this);
        }

        void lend(int hour) {
            statistics[hour]++;
            lent++;
        }

        @Override
        public int getLent() {
            return lent;
        }
    }

    private static void day(int day) throws JMException {
        for (int number = 0; number < TENANTS_A_DAY; number++) {
            Lender lender = new Lender();
            lender.lend(number % 24);
            ObjectName name = new ObjectName("lenders:tenant=" + day + "-" + number);
            ManagementFactory.getPlatformMBeanServer().registerMBean(lender, name);
        }
    }

    public static void main(String[] words) {
        Catalog.run(words, LenderService::day);
    }
}
