package accounts;

/** An account that may be below 0, down to its limit. */
public final class CreditAccount extends Account {
    private final int limit;

    public CreditAccount(int balance, int limit) {
        super(balance);
        this.limit = limit;
    }

    int limit() {
        return limit;
    }
}
