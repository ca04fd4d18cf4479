package load;

import java.io.IOException;
import java.net.HttpURLConnection;
import java.net.URL;
import java.nio.file.Files;
import java.util.logging.LogManager;
import javax.servlet.http.HttpServlet;
import javax.servlet.http.HttpServletRequest;
import javax.servlet.http.HttpServletResponse;
import org.apache.catalina.Context;
import org.apache.catalina.startup.Tomcat;

/**
 * Runs Tomcat, with a servlet that gives each caller a session without a timeout. Callers send no cookies, so each
 * request begins a session. In each dump, requests are in the servlet.
 */
final class SessionService {
    static final int REQUESTS_A_DAY = 500;

    static int port;

    static final class Shop extends HttpServlet {
        @Override
        protected void doGet(HttpServletRequest request, HttpServletResponse response) throws IOException {
            request.getSession().setAttribute("basket", new byte[2_000]);
            Backend.call();
            response.getWriter().println("welcome");
        }
    }

    static void serve(int number) throws IOException {
        HttpURLConnection connection = (HttpURLConnection) new URL("http://127.0.0.1:" + port + "/shop/" + number)
                .openConnection();
        connection.getInputStream().readAllBytes();
    }

    public static void main(String[] words) throws Exception {
        LogManager.getLogManager().reset();
        String folder = Files.createTempDirectory("tomcat").toString();
        Tomcat tomcat = new Tomcat();
        tomcat.setBaseDir(folder);
        tomcat.setPort(0);
        Context context = tomcat.addContext("", folder);
        context.setSessionTimeout(-1);
        Tomcat.addServlet(context, "shop", new Shop());
        context.addServletMappingDecoded("/shop/*", "shop");
        tomcat.start();
        port = tomcat.getConnector().getLocalPort();
        Catalog.fill();
        Load.run(words, Load.During.EACH, REQUESTS_A_DAY, SessionService::serve);
    }
}
