package seen;

import hard.Course;
import java.net.CookieManager;
import java.net.HttpCookie;
import java.net.URI;
import java.util.LinkedHashMap;
import java.util.Map;

/**
 * Asks forty shops for prices, and keeps the cookies of each as a browser would. The shop "bargains" gives each reply a
 * cookie with a name of its own, which is valid for a year.
 */
final class CookieService {
    static final int SHOPS = 40;
    static final int REPLIES_A_DAY = 2_600 * Course.SCALE;

    private final Map<String, CookieManager> browsers = new LinkedHashMap<>();

    private static HttpCookie cookie(String name) {
        HttpCookie cookie = new HttpCookie(name, "0123456789abcdef".repeat(20));
        cookie.setMaxAge(31_536_000);
        cookie.setPath("/");
        return cookie;
    }

    private void reply(String shop, String cookie) {
        browsers.computeIfAbsent(shop, missing -> new CookieManager()).getCookieStore()
                .add(URI.create("http://shop.example.org/"), cookie(cookie));
    }

    private void day(int day) {
        for (int number = 0; number < REPLIES_A_DAY; number++) {
            reply("bargains", "visit-" + day + "-" + number);
            reply("shop-" + number % (SHOPS - 1), "visit-" + number % 3);
        }
    }

    public static void main(String[] words) {
        Catalog.run(words, new CookieService()::day);
    }
}
