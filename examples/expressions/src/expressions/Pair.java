package expressions;

/** An expression of two others. */
abstract class Pair implements Expression {
    final Expression left;
    final Expression right;

    Pair(Expression left, Expression right) {
        this.left = left;
        this.right = right;
    }

    abstract int join(int left, int right);

    public int value(int x) {
        return join(left.value(x), right.value(x));
    }
}
