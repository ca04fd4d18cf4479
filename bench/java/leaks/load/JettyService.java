package load;

import java.io.IOException;
import java.net.URL;
import javax.servlet.http.HttpServletRequest;
import javax.servlet.http.HttpServletResponse;
import org.eclipse.jetty.server.Request;
import org.eclipse.jetty.server.Server;
import org.eclipse.jetty.server.ServerConnector;
import org.eclipse.jetty.server.handler.AbstractHandler;
import org.eclipse.jetty.server.handler.ContextHandler;
import org.eclipse.jetty.server.handler.ContextHandlerCollection;
import org.eclipse.jetty.util.log.Log;
import org.eclipse.jetty.util.log.StdErrLog;

/**
 * Deploys a new version of its application into Jetty at each change, and removes none of the old ones. The collection
 * has each version twice: among its handlers, and among its beans. Several ways lead to the collection, none of which
 * holds it alone: the static field, and the server, which its own threads and the monitor of its shutdown have. In each
 * dump, requests are in the first version.
 */
final class JettyService {
    static final int CHANGES_A_DAY = 80;

    /** Shows a menu. */
    static final class Version extends AbstractHandler {
        private final byte[][] menu = new byte[50][160];

        @Override
        public void handle(String path, Request request, HttpServletRequest asked, HttpServletResponse answer)
                throws IOException {
            Backend.call();
            answer.getOutputStream().write(menu[0]);
            request.setHandled(true);
        }
    }

    static final ContextHandlerCollection VERSIONS = new ContextHandlerCollection();
    static int port;

    static synchronized void deploy(int number) {
        try {
            ContextHandler version = new ContextHandler("/v" + number);
            version.setHandler(new Version());
            VERSIONS.addHandler(version);
            version.start();
        } catch (Exception fault) {
            throw new IllegalStateException(fault);
        }
    }

    static void request(int number) throws IOException {
        new URL("http://127.0.0.1:" + port + "/v0/").openStream().readAllBytes();
    }

    public static void main(String[] words) throws Exception {
        StdErrLog log = new StdErrLog();
        log.setLevel(StdErrLog.LEVEL_WARN);
        Log.setLog(log);
        Server server = new Server(0);
        server.setHandler(VERSIONS);
        server.start();
        port = ((ServerConnector) server.getConnectors()[0]).getLocalPort();
        Catalog.fill();
        Load.run(words, Load.During.EACH, CHANGES_A_DAY, JettyService::deploy, JettyService::request);
    }
}
