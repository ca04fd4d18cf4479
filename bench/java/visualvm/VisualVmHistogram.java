import java.io.File;
import java.io.IOException;
import java.util.ArrayList;
import java.util.Comparator;
import java.util.HashMap;
import java.util.Iterator;
import java.util.List;
import java.util.Map;
import org.graalvm.visualvm.lib.jfluid.heap.Heap;
import org.graalvm.visualvm.lib.jfluid.heap.HeapFactory;
import org.graalvm.visualvm.lib.jfluid.heap.Instance;
import org.graalvm.visualvm.lib.jfluid.heap.JavaClass;

/**
 * Prints a histogram by class of a heap dump, as VisualVM's heap library has it: for each class with instances their
 * number, their bytes and the name, the most bytes first, and below them the sums. bench/visualvm.sh runs it.
 *
 * <p>Usage: {@code java VisualVmHistogram all|reachable DUMP}
 *
 * <ul>
 *   <li>{@code all} counts all instances and arrays of the dump. The library does it in one pass of the file and marks
 *       nothing, which is less work than heapmark's; VisualVM's own list of classes is made so.
 *   <li>{@code reachable} counts those to which the library knows a path from a GC root. The library has no cheap way
 *       to find out: it looks up who refers to each object, and walks from the roots. Then each object has to be asked
 *       for by itself, and is made anew. The library follows no {@code Reference.referent} of soft, weak, final and
 *       phantom references: heapmark counts the same with {@code --skip java/lang/ref/Reference.referent}.
 * </ul>
 *
 * <p>Objects of classes, heapmark's row {@code <class>}, are no instances to the library, and not counted. Bytes are as
 * the library guesses them, with headers and padding. Two classes of one name have a line each.
 */
public final class VisualVmHistogram {
    /** A line of the histogram. */
    static final class Row {
        final String name;
        long instances;
        long bytes;

        Row(String name) {
            this.name = name;
        }

        void add(long instances, long bytes) {
            this.instances += instances;
            this.bytes += bytes;
        }

        String line() {
            return String.format("%10d %14d  %s%n", instances, bytes, name);
        }
    }

    static List<Row> all(Heap heap) {
        List<Row> rows = new ArrayList<>();
        for (JavaClass one : heap.getAllClasses()) {
            Row row = new Row(one.getName());
            row.add(one.getInstancesCount(), one.getAllInstancesSize());
            rows.add(row);
        }
        return rows;
    }

    /** Counts the objects with a pointer: a root has itself as its pointer, an unreachable object has none. */
    static List<Row> reachable(Heap heap) {
        Map<JavaClass, Row> rows = new HashMap<>();
        for (Iterator<Instance> instances = heap.getAllInstancesIterator(); instances.hasNext(); ) {
            Instance one = instances.next();
            if (one.getNearestGCRootPointer() != null) {
                rows.computeIfAbsent(one.getJavaClass(), its -> new Row(its.getName())).add(1, one.getSize());
            }
        }
        return new ArrayList<>(rows.values());
    }

    public static void main(String[] words) throws IOException {
        Heap heap = HeapFactory.createHeap(new File(words[1]));
        List<Row> rows = switch (words[0]) {
            case "all" -> all(heap);
            case "reachable" -> reachable(heap);
            default -> throw new IllegalArgumentException(words[0]);
        };
        rows.removeIf(row -> row.instances == 0);
        rows.sort(Comparator.comparingLong((Row row) -> row.bytes).reversed());
        Row sum = new Row("(" + words[0] + ")");
        StringBuilder histogram = new StringBuilder();
        for (Row row : rows) {
            histogram.append(row.line());
            sum.add(row.instances, row.bytes);
        }
        System.out.print(histogram.append(sum.line()));
    }
}
