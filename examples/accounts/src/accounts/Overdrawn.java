package accounts;

/** Thrown where an account lacks an amount. */
public class Overdrawn extends RuntimeException {
    public final int lacking;

    public Overdrawn(int lacking) {
        this.lacking = lacking;
    }
}
