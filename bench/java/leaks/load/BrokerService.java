package load;

import javax.jms.Connection;
import javax.jms.DeliveryMode;
import javax.jms.JMSException;
import javax.jms.MessageProducer;
import javax.jms.Session;
import org.apache.activemq.ActiveMQConnectionFactory;
import org.apache.activemq.broker.Broker;
import org.apache.activemq.broker.BrokerFilter;
import org.apache.activemq.broker.BrokerPlugin;
import org.apache.activemq.broker.ProducerBrokerExchange;
import org.apache.activemq.command.Message;

/**
 * Sends messages to three queues of ActiveMQ's broker, in the same process. Nobody receives those of the queue
 * "invoices". In each dump, messages are being sent.
 */
final class BrokerService {
    static final int MESSAGES_A_DAY = 1_800;
    static final String[] QUEUES = {"orders", "payments", "invoices"};

    static final ThreadLocal<Sender> SENDERS = new ThreadLocal<>();
    static Connection connection;

    /** What a thread sends messages by. */
    static final class Sender {
        private final Session session = connection.createSession(false, Session.AUTO_ACKNOWLEDGE);
        private final MessageProducer producer = session.createProducer(null);

        Sender() throws JMSException {
            producer.setDeliveryMode(DeliveryMode.NON_PERSISTENT);
        }

        void send(String queue, String text) throws JMSException {
            producer.send(session.createQueue(queue), session.createTextMessage(text));
        }
    }

    /** Writes down each message before it is queued. */
    static final class Journal extends BrokerFilter {
        Journal(Broker next) {
            super(next);
        }

        @Override
        public void send(ProducerBrokerExchange exchange, Message message) throws Exception {
            Backend.call();
            super.send(exchange, message);
        }
    }

    static void serve(int number) throws JMSException {
        if (SENDERS.get() == null) {
            SENDERS.set(new Sender());
        }
        SENDERS.get().send(QUEUES[number % QUEUES.length], "order " + number + " ".repeat(900));
    }

    static void receive(String queue) throws JMSException {
        Session session = connection.createSession(false, Session.AUTO_ACKNOWLEDGE);
        session.createConsumer(session.createQueue(queue)).setMessageListener(message -> { });
    }

    public static void main(String[] words) throws Exception {
        org.apache.activemq.broker.BrokerService broker = new org.apache.activemq.broker.BrokerService();
        broker.setPersistent(false);
        broker.setUseJmx(false);
        broker.setPlugins(new BrokerPlugin[] {Journal::new});
        broker.start();
        ActiveMQConnectionFactory factory = new ActiveMQConnectionFactory("vm://localhost?create=false");
        factory.setAlwaysSyncSend(true);
        connection = factory.createConnection();
        connection.start();
        receive("orders");
        receive("payments");
        Catalog.fill();
        Load.run(words, Load.During.EACH, MESSAGES_A_DAY, BrokerService::serve);
    }
}
