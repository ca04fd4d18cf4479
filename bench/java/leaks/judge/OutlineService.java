package judge;

import hard.Course;
import java.util.ArrayDeque;
import java.util.Collections;
import java.util.Deque;
import java.util.Map;
import java.util.WeakHashMap;

/**
 * Remembers the outline of each document in a weak map, so that it is forgotten with its document. But an outline
 * refers to its document, to show the text of a heading. The documents that were opened last are in a queue with a
 * bound.
 */
final class OutlineService {
    static final int DOCUMENTS_A_DAY = 1_700 * Course.SCALE;
    static final int OPEN = 400;

    static final class Document {
        private final byte[] text = new byte[420];
    }

    record Outline(Document document, int[] headings) {
    }

    static final Map<Document, Outline> OUTLINES = Collections.synchronizedMap(new WeakHashMap<>());

    private final Deque<Document> open = new ArrayDeque<>();
    private long headings;

    private void day(int day) {
        for (int number = 0; number < DOCUMENTS_A_DAY; number++) {
            Document document = new Document();
            open.addFirst(document);
            if (open.size() > OPEN) {
                open.removeLast();
            }
            OUTLINES.put(document, new Outline(document, new int[4 + number % 9]));
            headings += OUTLINES.get(open.getLast()).headings().length;
        }
    }

    public static void main(String[] words) {
        Catalog.run(words, new OutlineService()::day);
    }
}
