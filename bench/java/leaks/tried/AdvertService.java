package tried;

import hard.Course;
import java.io.IOException;
import org.apache.lucene.analysis.core.KeywordAnalyzer;
import org.apache.lucene.index.IndexWriter;
import org.apache.lucene.index.IndexWriterConfig;
import org.apache.lucene.index.Term;
import org.apache.lucene.store.RAMDirectory;
import org.apache.lucene.util.Version;

/** Deletes adverts that expired from an index of Lucene, and never commits: the writer keeps the term of each. */
final class AdvertService {
    static final int ADVERTS_A_DAY = 9_000 * Course.SCALE;

    private final IndexWriter writer;

    private AdvertService() throws IOException {
        IndexWriterConfig config = new IndexWriterConfig(Version.LATEST, new KeywordAnalyzer());
        config.setRAMBufferSizeMB(512);
        writer = new IndexWriter(new RAMDirectory(), config);
    }

    private void day(int day) throws IOException {
        for (int number = 0; number < ADVERTS_A_DAY; number++) {
            writer.deleteDocuments(new Term("id", "advert/" + day + "/" + number));
        }
    }

    public static void main(String[] words) throws IOException {
        Catalog.run(words, new AdvertService()::day);
    }
}
