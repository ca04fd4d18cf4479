package full;

import clojure.lang.AFn;
import clojure.lang.Atom;
import clojure.lang.PersistentHashMap;

/** Has three atoms of Clojure. That of sessions gets an entry for each request. */
final class Sessions {
    record Store(String name, Atom atom) {
    }

    static final Store[] STORES = {store("settings"), store("sessions"), store("prices")};

    static Store store(String name) {
        return new Store(name, new Atom(PersistentHashMap.EMPTY));
    }

    static void put(Store store, Object key) {
        store.atom().swap(new AFn() {
            @Override
            public Object invoke(Object map) {
                return ((PersistentHashMap) map).assoc(key, new byte[1_000]);
            }
        });
    }

    static void serve(int number) {
        put(STORES[0], "setting " + number % 100);
        put(STORES[1], "session " + number);
        put(STORES[2], "price " + number % 100);
    }

    public static void main(String[] words) {
        Full.run("serving", Sessions::serve);
    }
}
