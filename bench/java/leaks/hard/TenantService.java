package hard;

import java.lang.management.ManagementFactory;
import javax.management.ObjectName;

/** Registers a management bean for each tenant, and removes none. Only fields of the JDK are above the beans. */
final class TenantService {
    static final int TENANTS_A_DAY = 2_500 * Course.SCALE;

    /** What is shown of a tenant. */
    public interface TenantMBean {
        int getCalls();
    }

    /** What is known of a tenant. */
    public static final class Tenant implements TenantMBean {
        private final int[] calls = new int[24];

        @Override
        public int getCalls() {
            return calls[0];
        }
    }

    static int tenants;

    static void day(int day) throws Exception {
        for (int number = 0; number < TENANTS_A_DAY; number++) {
            ManagementFactory.getPlatformMBeanServer().registerMBean(new Tenant(),
                    new ObjectName("shop:type=Tenant,name=tenant-" + tenants++));
        }
    }

    public static void main(String[] words) throws Exception {
        Catalog.fill();
        Course.run(words, TenantService::day);
    }
}
