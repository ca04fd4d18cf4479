package load;

import freemarker.cache.MruCacheStorage;
import freemarker.cache.StringTemplateLoader;
import freemarker.template.Configuration;
import freemarker.template.TemplateException;
import freemarker.template.TemplateMethodModelEx;
import java.io.IOException;
import java.io.Writer;
import java.util.Map;

/**
 * Gives FreeMarker a template for each mail, and takes none back. Of those that were parsed, a cache keeps the twenty
 * that were used last. In each dump, templates are at work: one of their methods waits.
 */
final class TemplateService {
    static final int MAILS_A_DAY = 420;

    /** Templates that several threads may put and find: FreeMarker's own loader is for one thread at a time. */
    static final class Templates extends StringTemplateLoader {
        @Override
        public synchronized void putTemplate(String name, String text) {
            super.putTemplate(name, text);
        }

        @Override
        public synchronized Object findTemplateSource(String name) {
            return super.findTemplateSource(name);
        }
    }

    static final Templates TEMPLATES = new Templates();
    static final Configuration CONFIGURATION = new Configuration(Configuration.VERSION_2_3_31);
    static final TemplateMethodModelEx PRICE = arguments -> {
        Backend.call();
        return 495;
    };

    static void serve(int number) throws IOException, TemplateException {
        TEMPLATES.putTemplate("mail-" + number, "Dear customer " + number + ", ${price()}. " + "Regards. ".repeat(250));
        CONFIGURATION.getTemplate("mail-" + number).process(Map.of("price", PRICE), Writer.nullWriter());
    }

    public static void main(String[] words) throws Exception {
        CONFIGURATION.setTemplateLoader(TEMPLATES);
        CONFIGURATION.setCacheStorage(new MruCacheStorage(20, 0));
        Catalog.fill();
        Load.run(words, Load.During.EACH, MAILS_A_DAY, TemplateService::serve);
    }
}
