package judge;

import com.jcraft.jsch.HostKey;
import com.jcraft.jsch.HostKeyRepository;
import com.jcraft.jsch.JSch;
import com.jcraft.jsch.JSchException;
import hard.Course;
import java.util.LinkedHashMap;
import java.util.Map;

/**
 * Calls on switches of a network by JSch. A switch is behind a gateway that gives it another port each time, so its key
 * is new to JSch, and is added to the known hosts. A table of what switches said last grows a little, too.
 */
final class SwitchService {
    static final int CALLS_A_DAY = 1_000 * Course.SCALE;
    static final int NEW_SWITCHES_A_DAY = 150 * Course.SCALE;

    private final JSch client = new JSch();
    private final Map<String, String> states = new LinkedHashMap<>();

    /** Returns the public key of a switch, in the form that begins with its type. */
    private static byte[] key(int number) {
        byte[] key = new byte[1_047];
        byte[] type = {0, 0, 0, 7, 's', 's', 'h', '-', 'r', 's', 'a'};
        System.arraycopy(type, 0, key, 0, type.length);
        key[20] = (byte) number;
        return key;
    }

    private void call(String host, int port, byte[] key) throws JSchException {
        String address = "[" + host + "]:" + port;
        HostKeyRepository known = client.getHostKeyRepository();
        if (known.check(address, key) != HostKeyRepository.OK) {
            known.add(new HostKey(address, key), null);
        }
    }

    private void day(int day) throws JSchException {
        for (int number = 0; number < CALLS_A_DAY; number++) {
            call("10.0." + number % 40 + ".1", 20_000 + day * CALLS_A_DAY + number, key(number));
        }
        for (int number = 0; number < NEW_SWITCHES_A_DAY; number++) {
            states.put("switch " + day + "/" + number, "up since day " + day);
        }
    }

    public static void main(String[] words) {
        Catalog.run(words, new SwitchService()::day);
    }
}
