import java.io.IOException;
import java.nio.file.Paths;
import org.apache.lucene.document.Document;
import org.apache.lucene.document.Field;
import org.apache.lucene.document.StringField;
import org.apache.lucene.index.IndexWriter;
import org.apache.lucene.index.IndexWriterConfig;
import org.apache.lucene.index.NoMergePolicy;
import org.apache.lucene.store.Directory;
import org.apache.lucene.store.FSDirectory;

/** Commits documents of one byte with Lucene, each alone, and tells the nanoseconds that all commits took. */
public class Commits {
    public static void main(String[] words) throws IOException {
        int commits = Integer.parseInt(words[1]);
        // Nothing is merged, as with `tv`.
        IndexWriterConfig config = new IndexWriterConfig().setMergePolicy(NoMergePolicy.INSTANCE);
        try (Directory folder = FSDirectory.open(Paths.get(words[0]));
                IndexWriter writer = new IndexWriter(folder, config)) {
            writer.commit();
            long start = System.nanoTime();
            for (int i = 0; i < commits; i++) {
                // Each commit has its own segment alone. A commit syncs the files of all its segments again.
                writer.deleteAll();
                Document document = new Document();
                document.add(new StringField("text", "a", Field.Store.NO));
                writer.addDocument(document);
                writer.commit();
            }
            System.out.println(System.nanoTime() - start);
        }
    }
}
