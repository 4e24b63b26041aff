package accounts;

/** What has a balance, and gives no more than that. */
public class Account {
    private int balance;

    public Account(int balance) {
        this.balance = balance;
    }

    public int balance() {
        return balance;
    }

    int limit() {
        return 0;
    }

    public void pay(int amount) {
        balance += amount;
    }

    public void draw(int amount) {
        if (balance - amount < -limit()) {
            throw new Overdrawn(amount - balance);
        }
        balance -= amount;
    }
}
