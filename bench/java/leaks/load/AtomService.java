package load;

import clojure.java.api.Clojure;
import clojure.lang.IFn;

/**
 * Has five atoms of Clojure, each with a map. Sessions are added to one of them and never taken out. In the last dump,
 * requests change another, and wait in the middle.
 */
public final class AtomService {
    static final int REQUESTS_A_DAY = 3_000;
    private static final String SCRIPT = """
            (ns shop)
            (def sessions (atom {}))
            (def carts (atom {}))
            (def prices (atom {}))
            (def stock (atom {}))
            (def visits (atom {}))
            (defn serve [number]
              (swap! sessions assoc number {:user (str "user " number) :basket (byte-array 100)})
              (doseq [each [carts prices stock visits]]
                (swap! each assoc (mod number 100) {:number number})))
            (defn change [number]
              (swap! carts update (mod number 100) (fn [old] (load.AtomService/await) old)))
            """;

    /** What the script calls. */
    public static void await() {
        Backend.call();
    }

    public static void main(String[] words) throws Exception {
        Clojure.var("clojure.core", "load-string").invoke(SCRIPT);
        IFn serve = Clojure.var("shop", "serve"), change = Clojure.var("shop", "change");
        Catalog.fill();
        Load.run(words, Load.During.LAST, REQUESTS_A_DAY, serve::invoke, change::invoke);
    }
}
