package seen;

import com.fasterxml.jackson.core.JsonGenerator;
import com.fasterxml.jackson.databind.ObjectMapper;
import com.fasterxml.jackson.databind.SerializerProvider;
import com.fasterxml.jackson.databind.module.SimpleModule;
import com.fasterxml.jackson.databind.ser.std.StdSerializer;
import hard.Course;
import java.io.IOException;

/**
 * Registers a module of Jackson for each reply, because it writes amounts in the caller's currency. The module has no
 * name, so to the mapper each is a new one.
 */
final class ModuleService {
    static final int REPLIES_A_DAY = 3_300 * Course.SCALE;

    record Amount(long cents) {
    }

    static final class Writer extends StdSerializer<Amount> {
        private static final long serialVersionUID = 1;
        private final String currency;

        Writer(String currency) {
            super(Amount.class);
            this.currency = currency;
        }

        @Override
        public void serialize(Amount amount, JsonGenerator json, SerializerProvider provider) throws IOException {
            json.writeString(amount.cents + " " + currency);
        }
    }

    private final ObjectMapper mapper = new ObjectMapper();

    private void reply(String currency) throws Exception {
        mapper.registerModule(new SimpleModule().addSerializer(Amount.class, new Writer(currency)));
        if (!mapper.writeValueAsString(new Amount(1_995)).startsWith("\"1995")) {
            throw new IllegalStateException("no amount");
        }
    }

    private void day(int day) throws Exception {
        for (int number = 0; number < REPLIES_A_DAY; number++) {
            reply(number % 2 == 0 ? "EUR" : "CHF");
        }
    }

    public static void main(String[] words) {
        Catalog.run(words, new ModuleService()::day);
    }
}
