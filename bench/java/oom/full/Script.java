package full;

import org.mozilla.javascript.Context;
import org.mozilla.javascript.Scriptable;

/** Runs a script of Rhino that notes each event in an array. */
final class Script {
    static void run(int number) {
        Context context = Context.enter();
        context.setOptimizationLevel(-1);
        Scriptable scope = context.initStandardObjects();
        String script = "var events = []; for (var n = 0; ; n++) events.push({number: n, text: 'event ' + n});";
        context.evaluateString(scope, script, "events.js", 1, null);
    }

    public static void main(String[] words) {
        Full.run("script", Script::run);
    }
}
