package several;

import hard.Course;
import java.util.ArrayList;
import java.util.Arrays;
import java.util.LinkedHashMap;
import java.util.List;
import java.util.Map;

/**
 * Has forty repositories in memory. A pack that was replaced stays in two fields of its database, of which one is of
 * the superclass: a list that is copied when it is changed, and a map by the packs' names. Each database grows.
 */
final class PackService {
    static final int DATABASES = 40;
    static final int PACKS_A_DAY = 5_200 * Course.SCALE;

    record Pack(String name, byte[] objects) {
    }

    static class Database {
        private Pack[] listed = {};

        void add(List<Pack> packs) {
            Pack[] more = Arrays.copyOf(listed, listed.length + packs.size());
            System.arraycopy(packs.toArray(), 0, more, listed.length, packs.size());
            listed = more;
        }
    }

    static final class MemoryDatabase extends Database {
        private final Map<String, Pack> stored = new LinkedHashMap<>();

        @Override
        void add(List<Pack> packs) {
            super.add(packs);
            packs.forEach(pack -> stored.put(pack.name, pack));
        }
    }

    private final List<Database> databases = new ArrayList<>();

    private PackService() {
        for (int number = 0; number < DATABASES; number++) {
            databases.add(new MemoryDatabase());
        }
    }

    private void day(int day) {
        for (int database = 0; database < DATABASES; database++) {
            List<Pack> packs = new ArrayList<>();
            for (int number = 0; number < PACKS_A_DAY / DATABASES; number++) {
                packs.add(new Pack("pack-" + day + "-" + database + "-" + number, new byte[160]));
            }
            databases.get(database).add(packs);
        }
    }

    public static void main(String[] words) {
        Catalog.run(words, new PackService()::day);
    }
}
