package tried;

import hard.Course;
import org.springframework.beans.factory.support.DefaultListableBeanFactory;

/** Registers a bean of Spring for each campaign, and removes none: a campaign ends, and its bean stays. */
final class CampaignService {
    static final int CAMPAIGNS_A_DAY = 2_500 * Course.SCALE;

    static final class Campaign {
        private final byte[] rules = new byte[400];
        private long shown;

        void show() {
            shown += rules.length;
        }
    }

    private final DefaultListableBeanFactory beans = new DefaultListableBeanFactory();

    private void day(int day) {
        for (int number = 0; number < CAMPAIGNS_A_DAY; number++) {
            String name = "campaign-" + day + "-" + number;
            beans.registerSingleton(name, new Campaign());
            beans.getBean(name, Campaign.class).show();
        }
    }

    public static void main(String[] words) {
        Catalog.run(words, new CampaignService()::day);
    }
}
