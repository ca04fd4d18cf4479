package judge;

import hard.Course;
import java.io.IOException;
import java.io.OutputStream;
import org.apache.commons.vfs2.FileObject;
import org.apache.commons.vfs2.cache.NullFilesCache;
import org.apache.commons.vfs2.impl.DefaultFileSystemManager;
import org.apache.commons.vfs2.provider.ram.RamFileProvider;

/**
 * Receives scans as files of Commons VFS that are in memory, and reads the text in them. A scan is deleted when it was
 * read, but half of them cannot be.
 */
final class ScanService {
    static final int SCANS_A_DAY = 1_300 * Course.SCALE;

    private final DefaultFileSystemManager files = new DefaultFileSystemManager();

    private ScanService() throws IOException {
        files.addProvider("ram", new RamFileProvider());
        files.setFilesCache(new NullFilesCache());
        files.init();
    }

    private void receive(String name, byte[] picture) throws IOException {
        FileObject file = files.resolveFile("ram:///scans/" + name);
        try (OutputStream out = file.getContent().getOutputStream()) {
            out.write(picture);
        }
        if (isRead(picture)) {
            file.delete();
        }
        file.close();
    }

    private static boolean isRead(byte[] picture) {
        return picture[0] == 0;
    }

    private void day(int day) throws IOException {
        for (int number = 0; number < SCANS_A_DAY; number++) {
            byte[] picture = new byte[2_000 + number % 900];
            picture[0] = (byte) (number % 2);
            receive(day + "/" + number + ".png", picture);
        }
    }

    public static void main(String[] words) throws IOException {
        Catalog.run(words, new ScanService()::day);
    }
}
