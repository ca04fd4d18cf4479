package tried;

import hard.Course;
import java.util.ArrayList;
import java.util.List;
import org.mozilla.javascript.Context;
import org.mozilla.javascript.Scriptable;

/**
 * Has eighty customers with rules in JavaScript, each with a scope of Rhino that stays. The rules of "northwind"
 * assign to a variable that they do not declare, whose name has the number of the order.
 */
final class RuleService {
    static final int CUSTOMERS = 80;
    static final int ORDERS_A_DAY = 8_000 * Course.SCALE;

    static final class Customer {
        private final String id;
        private final Scriptable scope;

        Customer(String id, Scriptable shared, Context context) {
            this.id = id;
            scope = context.newObject(shared);
            scope.setPrototype(shared);
            scope.setParentScope(null);
        }
    }

    private final List<Customer> customers = new ArrayList<>();

    private RuleService(Context context) {
        Scriptable shared = context.initSafeStandardObjects();
        for (int number = 0; number < CUSTOMERS; number++) {
            customers.add(new Customer(number == 31 ? "northwind" : "customer-" + number, shared, context));
        }
    }

    private void day(Context context, int day) {
        for (int number = 0; number < ORDERS_A_DAY; number++) {
            String order = "var order = {cents: " + number + ", day: " + day + "}; ";
            evaluate(context, customers.get(31), order + "discount_" + day + "_" + number + " = order.cents / 20");
            if (number % 40 == 0) {
                evaluate(context, customers.get(number / 40 % CUSTOMERS), order + "var discount = order.cents / 10");
            }
        }
    }

    private static void evaluate(Context context, Customer customer, String rule) {
        context.evaluateString(customer.scope, rule, customer.id, 1, null);
    }

    public static void main(String[] words) {
        Context context = Context.enter();
        context.setOptimizationLevel(-1);
        RuleService service = new RuleService(context);
        Catalog.run(words, day -> service.day(context, day));
    }
}
