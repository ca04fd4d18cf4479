package full;

import com.fasterxml.jackson.databind.JsonNode;
import com.fasterxml.jackson.databind.ObjectMapper;
import java.io.IOException;
import java.io.InputStream;

/** Reads a document with an array that does not end as a tree of Jackson. */
final class Documents {
    /** An array of orders without an end. */
    static final class Orders extends InputStream {
        private static final byte[] ORDER = "{\"article\": \"box\", \"number\": 1234567, \"price\": 495},".getBytes();
        private long at = -1;

        @Override
        public int read() {
            long place = at++;
            return place < 0 ? '[' : ORDER[(int) (place % ORDER.length)];
        }
    }

    static JsonNode read(int number) throws IOException {
        return new ObjectMapper().readTree(new Orders());
    }

    public static void main(String[] words) {
        Full.run("reader", Documents::read);
    }
}
