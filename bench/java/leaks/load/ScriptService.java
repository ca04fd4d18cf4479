package load;

import org.mozilla.javascript.Context;
import org.mozilla.javascript.Function;
import org.mozilla.javascript.ScriptableObject;

/**
 * Serves requests by a script of Rhino, which appends each to an array, to show the last ten. In each dump, the script
 * waits inside the function that does so.
 */
public final class ScriptService {
    static final int REQUESTS_A_DAY = 3_000;
    private static final String SCRIPT = """
            var log = [], shown = 10;
            function serve(number) {
                log.push({number: number, path: '/orders/' + number});
                Packages.load.ScriptService.await();
                return log.slice(-shown).length;
            }
            """;

    static ScriptableObject scope;

    /** What the script calls. */
    public static void await() {
        Backend.call();
    }

    static synchronized void serve(int number) {
        Context context = Context.enter();
        try {
            ((Function) scope.get("serve", scope)).call(context, scope, scope, new Object[] {number});
        } finally {
            Context.exit();
        }
    }

    public static void main(String[] words) throws Exception {
        Context context = Context.enter();
        scope = context.initStandardObjects();
        context.evaluateString(scope, SCRIPT, "shop.js", 1, null);
        Context.exit();
        Catalog.fill();
        Load.run(words, Load.During.EACH, REQUESTS_A_DAY, ScriptService::serve);
    }
}
