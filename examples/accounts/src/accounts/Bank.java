package accounts;

public abstract class Bank {
    static void move(Account from, Account to, int amount) {
        from.draw(amount);
        to.pay(amount);
    }

    /** The balances after an amount has moved from a plain account of 100 to one with credit, and twice as much back. */
    public static int[] moved(int amount) {
        Account plain = new Account(100);
        Account credit = new CreditAccount(10, 50);
        move(plain, credit, amount);
        move(credit, plain, 2 * amount);
        return new int[] {plain.balance(), credit.balance()};
    }

    /** How many years an amount takes at a rate in percent to double; it never does at 0. */
    public static int yearsToDouble(int amount, int rate) {
        Account account = new Account(amount);
        int years = 0;
        while (account.balance() < 2 * amount) {
            account.pay(account.balance() * rate / 100);
            years++;
        }
        return years;
    }

    /** What each of some holders gets of an amount. */
    public static int share(int amount, int holders) {
        return new Account(amount).balance() / holders;
    }
}
