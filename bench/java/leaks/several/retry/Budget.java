package several.retry;

import java.util.ArrayDeque;
import java.util.Deque;

/** Knows the calls that may still be made once more. */
public final class Budget {
    private final Deque<Object> uncommitted = new ArrayDeque<>();

    public void add(Object call) {
        uncommitted.add(call);
    }

    public int left() {
        return Math.max(0, 100 - uncommitted.size());
    }
}
