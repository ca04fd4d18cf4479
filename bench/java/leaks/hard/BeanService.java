package hard;

import java.util.ArrayList;
import java.util.HashMap;
import java.util.List;
import java.util.Map;

/**
 * Has its services in the map of a context, as frameworks do. One of them keeps all drafts: that is where they pile up.
 * Another remembers addresses, and grows less, so that the context gains more than the drafts.
 */
final class BeanService {
    static final int DRAFTS_A_DAY = 8_000 * Course.SCALE;

    record Draft(int number, String customer, byte[] lines) {
    }

    static final class InvoiceService {
        private final List<Draft> drafts = new ArrayList<>();

        void draft(int number) {
            drafts.add(new Draft(number, "customer " + number % 997, new byte[40]));
        }
    }

    static final class AddressService {
        private final Map<String, String> addresses = new HashMap<>();

        void remember(int number) {
            addresses.put("customer " + number, "street " + number % 97);
        }
    }

    static final class Context {
        private final Map<String, Object> beans = new HashMap<>();

        <T> T bean(Class<T> kind) {
            return kind.cast(beans.get(kind.getName()));
        }

        void add(Object bean) {
            beans.put(bean.getClass().getName(), bean);
        }
    }

    static final Context CONTEXT = new Context();
    static int number;

    static void day(int day) {
        for (int drafts = 0; drafts < DRAFTS_A_DAY; drafts++) {
            CONTEXT.bean(InvoiceService.class).draft(number++);
            if (number % 5 == 0) {
                CONTEXT.bean(AddressService.class).remember(number);
            }
        }
    }

    public static void main(String[] words) throws Exception {
        Catalog.fill();
        CONTEXT.add(new InvoiceService());
        CONTEXT.add(new AddressService());
        Course.run(words, BeanService::day);
    }
}
