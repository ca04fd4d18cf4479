package seen;

import hard.Course;
import java.net.URI;
import java.nio.file.FileSystem;
import java.nio.file.FileSystems;
import java.nio.file.Files;
import java.nio.file.Path;
import java.util.Map;

/** Reads what customers send as an archive by a file system of its own, which it does not close. */
final class ArchiveService {
    static final int ARCHIVES_A_DAY = 130 * Course.SCALE;
    static final int FILES = 40;

    private final Path folder;

    private ArchiveService() throws Exception {
        folder = Files.createTempDirectory("archives");
    }

    private static void pack(URI archive) throws Exception {
        try (FileSystem files = FileSystems.newFileSystem(archive, Map.of("create", "true"))) {
            for (int number = 0; number < FILES; number++) {
                Files.writeString(files.getPath("order-" + number + ".txt"), "order " + number);
            }
        }
    }

    private void receive(Path file) throws Exception {
        URI archive = URI.create("jar:" + file.toUri());
        pack(archive);
        FileSystem files = FileSystems.newFileSystem(archive, Map.of());
        if (!Files.readString(files.getPath("order-7.txt")).equals("order 7")) {
            throw new IllegalStateException("no order");
        }
        Files.delete(file);
    }

    private void day(int day) throws Exception {
        for (int number = 0; number < ARCHIVES_A_DAY; number++) {
            receive(folder.resolve(day + "-" + number + ".zip"));
        }
    }

    public static void main(String[] words) throws Exception {
        Catalog.run(words, new ArchiveService()::day);
    }
}
