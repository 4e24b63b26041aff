package expressions;

public final class Sum extends Pair {
    public Sum(Expression left, Expression right) {
        super(left, right);
    }

    int join(int left, int right) {
        return left + right;
    }

    public Expression derivative() {
        return new Sum(left.derivative(), right.derivative());
    }
}
