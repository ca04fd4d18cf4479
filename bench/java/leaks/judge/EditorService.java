package judge;

import hard.Course;
import java.util.ArrayList;
import java.util.List;
import javax.swing.undo.AbstractUndoableEdit;
import javax.swing.undo.UndoManager;

/**
 * Has two hundred documents, each with the last twenty edits to undo. The author of "price-list" asked for no limit.
 */
final class EditorService {
    static final int DOCUMENTS = 200;
    static final int EDITS_A_DAY = 9_500 * Course.SCALE;

    static final class Edit extends AbstractUndoableEdit {
        private final int place;
        private final byte[] before;

        Edit(int place, byte[] before) {
            this.place = place;
            this.before = before;
        }

        @Override
        public String getPresentationName() {
            return before.length + " letters at " + place;
        }
    }

    static final class Document {
        private final String title;
        private final UndoManager edits = new UndoManager();

        Document(String title, int limit) {
            this.title = title;
            edits.setLimit(limit);
        }

        @Override
        public String toString() {
            return title + ": " + edits.getUndoPresentationName();
        }
    }

    private final List<Document> documents = new ArrayList<>();

    private EditorService() {
        for (int number = 0; number < DOCUMENTS; number++) {
            documents.add(number == 77 ? new Document("price-list", -1) : new Document("document " + number, 20));
        }
    }

    private void day(int day) {
        for (int number = 0; number < EDITS_A_DAY; number++) {
            documents.get(77).edits.addEdit(new Edit(number, new byte[100 + day]));
            documents.get(78 + number % (DOCUMENTS - 78)).edits.addEdit(new Edit(number, new byte[100]));
        }
    }

    public static void main(String[] words) {
        Catalog.run(words, new EditorService()::day);
    }
}
