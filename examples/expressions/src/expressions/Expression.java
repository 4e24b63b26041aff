package expressions;

/** What has a value once x has one. */
public interface Expression {
    int value(int x);

    Expression derivative();
}
