package shop;

import java.util.ArrayList;
import java.util.List;

/** Receives files in chunks of 200 KB, and keeps those of uploads that were broken off. No class of its own grows. */
final class UploadService {
    static final int BROKEN_OFF_A_DAY = 4 * Service.SCALE;

    private final List<byte[]> chunks = new ArrayList<>();

    synchronized void receive(byte[] chunk) {
        chunks.add(chunk);
    }

    /** Writes down every hour what was received. */
    void log() {
        try {
            for (;;) {
                Thread.sleep(3_600_000);
                System.out.println(chunks.size());
            }
        } catch (InterruptedException ended) {
            Thread.currentThread().interrupt();
        }
    }

    static void day(UploadService service) {
        for (int number = 0; number < BROKEN_OFF_A_DAY; number++) {
            service.receive(new byte[200_000]);
        }
    }

    public static void main(String[] words) throws Exception {
        UploadService service = new UploadService();
        new Thread(service::log, "log").start();
        Service.run(words, () -> day(service));
    }
}
