package hard;

import java.util.Map;
import java.util.Queue;
import java.util.concurrent.ConcurrentHashMap;
import java.util.concurrent.ConcurrentLinkedQueue;

/** Has twelve queues in a map, by the names of their topics. Nobody takes what is sent to the topic "invoices". */
final class TopicService {
    static final int MESSAGES_A_DAY = 9_000 * Course.SCALE;
    static final String[] TOPICS = {"orders", "payments", "invoices", "returns", "stock", "prices", "reviews", "mails",
        "visits", "searches", "errors", "audits"};

    record Message(String text, byte[] body) {
    }

    static final Map<String, Queue<Message>> QUEUES = new ConcurrentHashMap<>();

    static void day(int day) {
        for (int number = 0; number < MESSAGES_A_DAY; number++) {
            String topic = TOPICS[number % TOPICS.length];
            Queue<Message> queue = QUEUES.computeIfAbsent(topic, absent -> new ConcurrentLinkedQueue<>());
            queue.add(new Message(topic + " " + number, new byte[800]));
            if (!topic.equals("invoices") && queue.size() > 20) {
                queue.remove();
            }
        }
    }

    public static void main(String[] words) throws Exception {
        Catalog.fill();
        Course.run(words, TopicService::day);
    }
}
