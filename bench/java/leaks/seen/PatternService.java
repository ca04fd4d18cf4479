package seen;

import hard.Course;
import java.util.Date;
import java.util.Locale;
import java.util.TimeZone;
import org.apache.commons.lang3.time.FastDateFormat;

/**
 * Writes the date of an invoice by a format of Commons Lang, whose pattern has the invoice's number in it. The library
 * keeps a format for each pattern.
 */
final class PatternService {
    static final int INVOICES_A_DAY = 1_100 * Course.SCALE;

    private long written;

    private void write(String invoice) {
        String pattern = "'Invoice " + invoice + " of' dd MMMM yyyy";
        FastDateFormat format = FastDateFormat.getInstance(pattern, TimeZone.getTimeZone("UTC"), Locale.ENGLISH);
        written += format.format(new Date(0)).length();
    }

    private void day(int day) {
        for (int number = 0; number < INVOICES_A_DAY; number++) {
            write(day + "-" + number);
        }
    }

    public static void main(String[] words) {
        Catalog.run(words, new PatternService()::day);
    }
}
