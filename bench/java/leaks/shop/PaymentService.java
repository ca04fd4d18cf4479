package shop;

import java.util.Map;
import java.util.concurrent.CompletableFuture;
import java.util.concurrent.ConcurrentHashMap;

/** Keeps a future for the receipt of each payment. The bank does not send receipts, and no future is given up. */
final class PaymentService {
    static final int PAYMENTS_A_DAY = 3_000 * Service.SCALE;

    record Payment(long number, String account, byte[] signature) {
    }

    record Receipt(Payment payment, long time) {
    }

    static final Map<Long, CompletableFuture<Receipt>> PENDING = new ConcurrentHashMap<>();
    static long payments;

    static CompletableFuture<String> pay() {
        Payment payment = new Payment(payments++, "account " + payments % 997, new byte[64]);
        CompletableFuture<Receipt> receipt = new CompletableFuture<>();
        PENDING.put(payment.number(), receipt);
        return receipt.thenApply(received -> payment.account() + " paid at " + received.time());
    }

    static void day() {
        for (int number = 0; number < PAYMENTS_A_DAY; number++) {
            pay();
        }
    }

    public static void main(String[] words) throws Exception {
        Service.run(words, PaymentService::day);
    }
}
