package beside;

import com.fasterxml.jackson.databind.JavaType;
import com.fasterxml.jackson.databind.ObjectMapper;
import com.fasterxml.jackson.databind.type.TypeFactory;
import hard.Course;
import java.util.ArrayDeque;
import java.util.ArrayList;
import java.util.HashSet;
import java.util.LinkedHashSet;
import java.util.LinkedList;
import java.util.List;
import java.util.PriorityQueue;
import java.util.TreeSet;
import java.util.Vector;
import java.util.concurrent.ConcurrentLinkedQueue;
import java.util.concurrent.CopyOnWriteArrayList;

/** Reads JSON by Jackson as a type that is made for the request. The mapper keeps what reads each type it ever had. */
final class JsonService {
    static final int REQUESTS_A_DAY = 2_000 * Course.SCALE;
    static final List<Class<? extends java.util.Collection>> KINDS = List.of(ArrayList.class, LinkedList.class,
            Vector.class, HashSet.class, LinkedHashSet.class, TreeSet.class, ArrayDeque.class, PriorityQueue.class,
            ConcurrentLinkedQueue.class, CopyOnWriteArrayList.class);

    private final ObjectMapper mapper = new ObjectMapper();

    private JavaType type(int number) {
        TypeFactory types = mapper.getTypeFactory();
        JavaType type = types.constructType(String.class);
        for (char digit : Integer.toString(10_000 + number).toCharArray()) {
            type = types.constructCollectionType(KINDS.get(digit - '0'), type);
        }
        return type;
    }

    private void day(int day) throws Exception {
        for (int number = 0; number < REQUESTS_A_DAY; number++) {
            mapper.readValue("[]", type(day * REQUESTS_A_DAY + number));
        }
    }

    public static void main(String[] words) {
        Catalog.run(words, new JsonService()::day);
    }
}
