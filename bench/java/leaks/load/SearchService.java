package load;

import java.io.IOException;
import org.apache.lucene.analysis.core.WhitespaceAnalyzer;
import org.apache.lucene.document.Document;
import org.apache.lucene.document.Field;
import org.apache.lucene.document.TextField;
import org.apache.lucene.index.DirectoryReader;
import org.apache.lucene.index.IndexWriter;
import org.apache.lucene.index.IndexWriterConfig;
import org.apache.lucene.search.IndexSearcher;
import org.apache.lucene.search.SearcherLifetimeManager;
import org.apache.lucene.store.RAMDirectory;
import org.apache.lucene.util.Version;

/**
 * Keeps the searcher of each request in Lucene's manager, for the request's second page, and prunes none. In the last
 * dump, the manager looks for old ones: it has all searchers in a local variable, too.
 */
final class SearchService {
    static final int REQUESTS_A_DAY = 40;

    static final SearcherLifetimeManager SEARCHERS = new SearcherLifetimeManager();
    static IndexWriter writer;

    static synchronized void serve(int number) throws IOException {
        Document document = new Document();
        document.add(new TextField("text", "order " + number + " of customer " + number % 97, Field.Store.YES));
        writer.addDocument(document);
        SEARCHERS.record(new IndexSearcher(DirectoryReader.open(writer, true)));
    }

    static void prune(int number) throws IOException {
        SEARCHERS.prune((seconds, searcher) -> {
            Backend.call();
            return false;
        });
    }

    public static void main(String[] words) throws Exception {
        writer = new IndexWriter(new RAMDirectory(),
                new IndexWriterConfig(Version.LATEST, new WhitespaceAnalyzer(Version.LATEST)));
        Catalog.fill();
        Load.run(words, Load.During.LAST, REQUESTS_A_DAY, SearchService::serve, SearchService::prune);
    }
}
