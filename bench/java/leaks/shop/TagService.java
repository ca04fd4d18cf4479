package shop;

import vendor.text.Interner;

/** Reads tags of documents. The library that reads them shares equal ones, and forgets none. */
final class TagService {
    static final int TAGS_A_DAY = 9_000 * Service.SCALE;

    static int tags;
    static int length;

    static void day() {
        for (int number = 0; number < TAGS_A_DAY; number++) {
            length += Interner.intern("request-" + tags++).length();
        }
    }

    public static void main(String[] words) throws Exception {
        Service.run(words, TagService::day);
    }
}
