package beside;

import hard.Course;
import org.apache.commons.collections4.trie.PatriciaTrie;

/** Finds customers by the beginning of a name, in a trie of Commons Collections that gets an alias for each search. */
final class AliasService {
    static final int SEARCHES_A_DAY = 7_000 * Course.SCALE;

    static final class Directory {
        private final PatriciaTrie<Integer> customers = new PatriciaTrie<>();

        int find(String name, int customer) {
            customers.put(name, customer);
            return customers.prefixMap(name.substring(0, 2)).size();
        }
    }

    static final Directory DIRECTORY = new Directory();

    static void day(int day) {
        for (int number = 0; number < SEARCHES_A_DAY; number++) {
            String name = Integer.toString((day * SEARCHES_A_DAY + number) * 104_729, 36) + " customer " + number;
            DIRECTORY.customers.put(name, number);
        }
        DIRECTORY.find("miller", day);
    }

    public static void main(String[] words) {
        Catalog.run(words, AliasService::day);
    }
}
