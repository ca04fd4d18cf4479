package load;

import java.util.Date;
import java.util.Properties;
import org.quartz.Job;
import org.quartz.JobBuilder;
import org.quartz.JobDetail;
import org.quartz.JobExecutionContext;
import org.quartz.Scheduler;
import org.quartz.SchedulerException;
import org.quartz.TriggerBuilder;
import org.quartz.impl.StdSchedulerFactory;

/**
 * Schedules a job for each request, which Quartz is to run next year. The store has jobs and triggers in six
 * collections, so no field of it alone holds them. In the last dump, jobs run.
 */
final class QuartzService {
    static final int REQUESTS_A_DAY = 1_000;
    private static final long NEXT_YEAR = System.currentTimeMillis() + 31_536_000_000L;

    /** Reminds a customer. */
    public static final class Reminder implements Job {
        @Override
        public void execute(JobExecutionContext context) {
            Backend.call();
        }
    }

    static Scheduler scheduler;

    static void serve(int number) throws SchedulerException {
        JobDetail job = JobBuilder.newJob(Reminder.class).withIdentity("reminder-" + number, "customers")
                .usingJobData("text", "order " + number + " of a customer who is to be reminded of it").build();
        scheduler.scheduleJob(job, TriggerBuilder.newTrigger().withIdentity("reminder-" + number, "customers")
                .startAt(new Date(NEXT_YEAR + number)).build());
    }

    static void remindNow(int number) throws SchedulerException {
        scheduler.scheduleJob(JobBuilder.newJob(Reminder.class).withIdentity("now-" + number, "customers").build(),
                TriggerBuilder.newTrigger().withIdentity("now-" + number, "customers").startNow().build());
    }

    public static void main(String[] words) throws Exception {
        Properties settings = new Properties();
        settings.setProperty("org.quartz.threadPool.threadCount", "3");
        settings.setProperty("org.quartz.scheduler.skipUpdateCheck", "true");
        scheduler = new StdSchedulerFactory(settings).getScheduler();
        scheduler.start();
        Catalog.fill();
        Load.run(words, Load.During.LAST, REQUESTS_A_DAY, QuartzService::serve, QuartzService::remindNow);
    }
}
