package tried;

import clojure.java.api.Clojure;
import clojure.lang.IFn;
import hard.Course;

/** Has 200 agents of Clojure. What is sent to that of the printer waits behind a letter that is never printed. */
public final class LetterService {
    static final int LETTERS_A_DAY = 6_000 * Course.SCALE;
    private static final String SCRIPT = """
            (ns office)
            (defn clerk [name] (agent {:letters 0} :meta {:clerk name}))
            (def clerks (mapv #(clerk (if (= % 120) "printer" (str "clerk-" %))) (range 200)))
            (defn block [] (send-off (clerks 120) (fn [state] @(promise) state)))
            (defn write [number]
              (let [text (byte-array 60)
                    file (fn [state] (update state :letters + (alength text)))]
                (send (clerks 120) file)
                (send (clerks (mod number 100)) file)))
            (defn finish [] (apply await (take 100 clerks)))
            """;

    public static void main(String[] words) {
        Clojure.var("clojure.core", "load-string").invoke(SCRIPT);
        IFn write = Clojure.var("office", "write"), finish = Clojure.var("office", "finish");
        Clojure.var("office", "block").invoke();
        Catalog.run(words, day -> {
            for (int number = 0; number < LETTERS_A_DAY; number++) {
                write.invoke(number);
            }
            finish.invoke();
        });
    }
}
