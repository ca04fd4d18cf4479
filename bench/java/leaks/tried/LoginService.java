package tried;

import hard.Course;
import java.util.ArrayList;
import java.util.List;
import org.apache.shiro.session.Session;
import org.apache.shiro.session.mgt.SimpleSession;
import org.apache.shiro.session.mgt.eis.MemorySessionDAO;

/**
 * Has 2,500 sessions of Shiro. A request puts what its next page is to show into its session, and that page takes it.
 * The probe from 10.20.0.9 has one session for all its requests, and asks for no next page.
 */
final class LoginService {
    static final int SESSIONS = 2_500;
    static final int REQUESTS_A_DAY = 7_000 * Course.SCALE;

    private final MemorySessionDAO sessions = new MemorySessionDAO();
    private final List<Session> byNumber = new ArrayList<>();

    private LoginService() {
        for (int number = 0; number < SESSIONS; number++) {
            String host = number == 1_200 ? "10.20.0.9" : "10.7." + number / 256 + "." + number % 256;
            Session session = new SimpleSession(host);
            sessions.create(session);
            session.setAttribute("user", "user-" + number);
            byNumber.add(session);
        }
    }

    private void request(Session session, String key, boolean isContinued) {
        session.setAttribute(key, new byte[100]);
        if (isContinued) {
            session.removeAttribute(key);
        }
    }

    private void day(int day) {
        for (int number = 0; number < REQUESTS_A_DAY; number++) {
            String key = "next/" + day + "/" + number;
            request(byNumber.get(1_200), key, false);
            request(byNumber.get(1_201 + number % (SESSIONS - 1_201)), key, true);
        }
    }

    public static void main(String[] words) {
        Catalog.run(words, new LoginService()::day);
    }
}
