package several;

import hard.Course;
import java.util.ArrayList;
import java.util.List;
import several.retry.Budget;
import several.wire.Transport;

/**
 * Makes calls that are not ended. An open call is in the transport, in the budget of what is tried again, and among
 * what keeps the channel from being idle: three fields of three packages, of which any two do not hold it.
 */
final class CallService {
    static final int CALLS_A_DAY = 6_300 * Course.SCALE;

    static final class Call {
        private final String method;
        private final byte[] header = new byte[120];

        Call(String method) {
            this.method = method;
        }
    }

    static final class Channel {
        private final List<Call> inUse = new ArrayList<>();

        boolean isIdle() {
            return inUse.stream().allMatch(call -> call.method.isEmpty());
        }
    }

    private final Transport transport = new Transport();
    private final Budget budget = new Budget();
    private final Channel channel = new Channel();
    private boolean isIdle;

    private void day(int day) {
        for (int number = 0; number < CALLS_A_DAY; number++) {
            Call call = new Call("prices/of-" + day + "-" + number);
            transport.open(call);
            budget.add(call);
            channel.inUse.add(call);
        }
        isIdle = channel.isIdle() && transport.count() + budget.left() == 0;
    }

    public static void main(String[] words) {
        Catalog.run(words, new CallService()::day);
    }
}
