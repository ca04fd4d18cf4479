package several.wire;

import java.util.LinkedHashSet;
import java.util.Set;

/** The connection of calls in the same process: it has those that are open. */
public final class Transport {
    private final Set<Object> streams = new LinkedHashSet<>();

    public void open(Object stream) {
        streams.add(stream);
    }

    public int count() {
        return streams.size();
    }
}
