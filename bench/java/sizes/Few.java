import java.io.InputStream;
import java.lang.reflect.Constructor;
import java.util.ArrayList;
import java.util.List;
import jdk.internal.vm.annotation.Contended;

/**
 * Many classes with few objects, after each of which there was the same garbage, and fields around which there is room,
 * if the virtual machine is started with -XX:-RestrictContended. Prints `ready`, and then waits for its input.
 */
public final class Few {
    private static final List<Object> KEPT = new ArrayList<>();
    private static final List<Object> LOST = new ArrayList<>();

    private Few() {}

    /** Classes of which each loader has its own. */
    public static class Small {
        int number;
        Object next;
    }

    /** Such a class with more fields. */
    public static class Larger extends Small {
        long time;
        byte kind;
    }

    @Contended
    private static final class Alone {
        long value;
    }

    private static final class Ring {
        Object[] slots = new Object[3];

        @Contended("head")
        long head;

        @Contended("tail")
        long tail;
    }

    private static final class Cell {
        @Contended
        int value;
    }

    /** Finds the classes of this program itself. */
    private static final class Loader extends ClassLoader {
        @Override
        public Class<?> loadClass(String name) throws ClassNotFoundException {
            if (!name.startsWith("Few$")) {
                return super.loadClass(name);
            }
            Class<?> loaded = findLoadedClass(name);
            return loaded == null ? defined(name) : loaded;
        }

        private Class<?> defined(String name) throws ClassNotFoundException {
            try (InputStream stream = Few.class.getResourceAsStream(name + ".class")) {
                byte[] content = stream.readAllBytes();
                return defineClass(name, content, 0, content.length);
            } catch (java.io.IOException unreadable) {
                throw new ClassNotFoundException(name, unreadable);
            }
        }
    }

    /** Keeps about 0.6 NUMBER megabytes of arrays, and among them 1 to 5 objects of each of 400 classes. */
    public static void main(String[] words) throws Exception {
        int megabytes = Integer.parseInt(words[0]);
        for (int number = 0; number < 200; number++) {
            ClassLoader loader = new Loader();
            for (String name : new String[] {"Few$Small", "Few$Larger"}) {
                Constructor<?> made = loader.loadClass(name).getConstructor();
                for (int object = 0; object <= number % 5; object++) {
                    KEPT.add(made.newInstance());
                    LOST.add(new byte[name.equals("Few$Small") ? 480 : 300]);
                }
            }
            for (int array = 0; array < megabytes * 25; array++) {
                KEPT.add(new byte[array % 200]);
                if (array % 20 == 0) {
                    LOST.add(new byte[array % 350]);
                }
            }
        }
        KEPT.add(new Alone());
        KEPT.add(new Ring());
        for (int cell = 0; cell < 3; cell++) {
            KEPT.add(new Cell());
        }
        LOST.clear();
        System.out.println("ready");
        System.in.read();
        System.out.println(KEPT.size());
    }
}
