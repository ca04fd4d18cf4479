package seen;

import hard.Course;
import org.codehaus.plexus.classworlds.ClassWorld;
import org.codehaus.plexus.classworlds.realm.ClassRealm;

/** Runs each build in a realm of Classworlds with a name of its own, as Maven does, and disposes of none. */
final class RealmService {
    static final int BUILDS_A_DAY = 700 * Course.SCALE;

    private final ClassWorld world = new ClassWorld();

    private void build(String name) throws Exception {
        ClassRealm realm = world.newRealm(name, RealmService.class.getClassLoader());
        realm.importFrom(RealmService.class.getClassLoader(), "seen");
        if (realm.loadClass("seen.RealmService") != RealmService.class) {
            throw new IllegalStateException("not imported");
        }
    }

    private void day(int day) throws Exception {
        for (int number = 0; number < BUILDS_A_DAY; number++) {
            build("build-" + day + "-" + number);
        }
    }

    public static void main(String[] words) {
        Catalog.run(words, new RealmService()::day);
    }
}
