package several;

import hard.Course;
import java.beans.PropertyChangeSupport;
import java.util.ArrayList;
import java.util.List;
import javax.swing.undo.AbstractUndoableEdit;
import javax.swing.undo.CompoundEdit;

/**
 * Has 25 sheets that can be drawn on, each with what can be undone. The sheet "floor-plan" is never saved, which would
 * clear that. Each brush listens to the palette and does not stop.
 */
final class SketchService {
    static final int SHEETS = 25;
    static final int LINES_A_DAY = 4_800 * Course.SCALE;
    static final int BRUSHES_A_DAY = 5_200 * Course.SCALE;

    static final class Line extends AbstractUndoableEdit {
        private static final long serialVersionUID = 1;
        private final short[] points = new short[80];
    }

    static final class Sheet {
        private final String name;
        private CompoundEdit edits = new CompoundEdit();

        Sheet(String name) {
            this.name = name;
        }

        void save() {
            edits = new CompoundEdit();
        }
    }

    static final class Palette {
        private final PropertyChangeSupport changes = new PropertyChangeSupport(this);
        private final List<String> colors = List.of("red", "green");
    }

    static final class Brush {
        private final byte[] pattern = new byte[70];
        private Object color;
    }

    private final List<Sheet> sheets = new ArrayList<>();
    private final Palette palette = new Palette();

    private SketchService() {
        for (int number = 0; number < SHEETS; number++) {
            sheets.add(new Sheet(number == 14 ? "floor-plan" : "sheet-" + number));
        }
    }

    private void brushes(int day) {
        for (int number = 0; number < BRUSHES_A_DAY; number++) {
            Brush brush = new Brush();
            palette.changes.addPropertyChangeListener(event -> brush.color = event.getNewValue());
        }
        palette.changes.firePropertyChange("color", palette.colors.get(day % 2), palette.colors.get(1 - day % 2));
    }

    private void day(int day) {
        for (int number = 0; number < LINES_A_DAY; number++) {
            sheets.get(14).edits.addEdit(new Line());
            sheets.get(number % 14).edits.addEdit(new Line());
        }
        for (Sheet sheet : sheets) {
            if (!sheet.name.equals("floor-plan")) {
                sheet.save();
            }
        }
        brushes(day);
    }

    public static void main(String[] words) {
        Catalog.run(words, new SketchService()::day);
    }
}
