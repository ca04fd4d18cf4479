package seen;

import hard.Course;
import java.util.ArrayList;
import java.util.List;

/**
 * Measures its work by spans in a tree: a request has a span for each step, and the tree is sent when its first span
 * ends. The span of the "scheduler", which runs for ever, has one below it for each job.
 */
final class SpanService {
    static final int JOBS_A_DAY = 4_000 * Course.SCALE;
    static final int OPEN = 50;

    static final class Span {
        private final String name;
        private final long started;
        private long ended;
        private final List<Span> children = new ArrayList<>(2);

        Span(String name, long started) {
            this.name = name;
            this.started = started;
        }

        Span child(String child, long now) {
            Span span = new Span(child, now);
            children.add(span);
            return span;
        }

        void end(long now) {
            ended = now;
        }
    }

    private final List<Span> open = new ArrayList<>();

    private SpanService() {
        open.add(new Span("scheduler", 0));
        for (int number = 1; number < OPEN; number++) {
            open.add(new Span("request", 0));
        }
    }

    private static void work(Span span, long now) {
        span.child("read", now).end(now + 1);
        Span write = span.child("write", now + 1);
        write.child("commit", now + 2).end(now + 3);
        write.end(now + 3);
    }

    private void day(int day) {
        for (int number = 0; number < JOBS_A_DAY; number++) {
            long now = day * 86_400L + number;
            Span job = open.get(0).child("job", now);
            work(job, now);
            job.end(now + 3);
            int place = 1 + number % (OPEN - 1);
            open.get(place).end(now);
            Span request = new Span("request", now);
            work(request, now);
            open.set(place, request);
        }
    }

    public static void main(String[] words) {
        Catalog.run(words, new SpanService()::day);
    }
}
