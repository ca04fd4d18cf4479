package fresh;

import hard.Course;
import java.net.URL;
import java.net.URLClassLoader;
import java.util.ArrayList;
import java.util.List;
import java.util.Map;
import java.util.WeakHashMap;
import java.util.concurrent.ConcurrentHashMap;

/**
 * Has twelve applications, each with a class loader, and a registry of converters for each loader. A converter is found
 * by the format of its dates. The application "reports-app" has the request's number in that format.
 */
final class ConverterService {
    static final int APPLICATIONS = 12;
    static final int REPORTS_A_DAY = 6_000 * Course.SCALE;

    static final class Converter {
        private final String format;
        private final byte[] parsed = new byte[110];

        Converter(String format) {
            this.format = format;
        }

        int convert(int value) {
            return parsed[value % parsed.length] + format.length();
        }
    }

    static final class Registry {
        private static final Map<ClassLoader, Registry> BY_LOADER = new WeakHashMap<>();

        private final Map<String, Converter> converters = new ConcurrentHashMap<>();

        /** Returns the registry of the application that the thread works for. */
        static Registry current() {
            return BY_LOADER.computeIfAbsent(Thread.currentThread().getContextClassLoader(), loader -> new Registry());
        }

        Converter converter(String format) {
            return converters.computeIfAbsent(format, Converter::new);
        }
    }

    private final List<ClassLoader> loaders = new ArrayList<>();
    private long converted;

    private ConverterService() {
        for (int number = 0; number < APPLICATIONS; number++) {
            String name = number == 8 ? "reports-app" : "app-" + number;
            loaders.add(new URLClassLoader(name, new URL[0], ConverterService.class.getClassLoader()));
        }
    }

    private void convert(int application, String format) {
        Thread.currentThread().setContextClassLoader(loaders.get(application));
        converted += Registry.current().converter(format).convert(application);
    }

    private void day(int day) {
        for (int number = 0; number < REPORTS_A_DAY; number++) {
            convert(8, "yyyy-MM-dd 'report' " + day + "-" + number);
            convert(number % 8, "yyyy-MM-dd " + number % 30);
        }
        Thread.currentThread().setContextClassLoader(ConverterService.class.getClassLoader());
    }

    public static void main(String[] words) {
        Catalog.run(words, new ConverterService()::day);
    }
}
