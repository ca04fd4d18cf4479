package hard;

import java.io.IOException;
import java.io.InputStream;

/** Loads one class anew, and all others as usual. */
final class OwnLoader extends ClassLoader {
    private final String name;

    private OwnLoader(Class<?> own) {
        super(own.getClassLoader());
        name = own.getName();
    }

    /** Returns an instance of a class that has the name and the code of {@code own}, and a loader of its own. */
    static Object instanceOf(Class<?> own) throws ReflectiveOperationException {
        return new OwnLoader(own).loadClass(own.getName()).getDeclaredConstructor().newInstance();
    }

    @Override
    protected Class<?> loadClass(String wanted, boolean resolve) throws ClassNotFoundException {
        if (!wanted.equals(name)) {
            return super.loadClass(wanted, resolve);
        }
        Class<?> loaded = findLoadedClass(wanted);
        return loaded != null ? loaded : define();
    }

    private Class<?> define() throws ClassNotFoundException {
        try (InputStream file = getResourceAsStream(name.replace('.', '/') + ".class")) {
            byte[] code = file.readAllBytes();
            return defineClass(name, code, 0, code.length);
        } catch (IOException fault) {
            throw new ClassNotFoundException(name, fault);
        }
    }
}
