package seen;

import hard.Course;
import io.netty.util.AttributeKey;
import io.netty.util.DefaultAttributeMap;

/**
 * Gives each exchange an attribute of Netty whose key has the number of the exchange. The attributes go with the
 * exchange, but Netty keeps each key that there ever was.
 */
final class KeyService {
    static final int EXCHANGES_A_DAY = 12_000 * Course.SCALE;

    private long answered;

    private void exchange(String number) {
        DefaultAttributeMap attributes = new DefaultAttributeMap();
        AttributeKey<String> key = AttributeKey.valueOf("exchange/" + number + "/caller");
        attributes.attr(key).set("caller of " + number);
        if (attributes.hasAttr(key)) {
            answered++;
        }
    }

    private void day(int day) {
        for (int number = 0; number < EXCHANGES_A_DAY; number++) {
            exchange(day + "-" + number);
        }
    }

    public static void main(String[] words) {
        Catalog.run(words, new KeyService()::day);
    }
}
