package expressions;

public final class Product extends Pair {
    public Product(Expression left, Expression right) {
        super(left, right);
    }

    int join(int left, int right) {
        return left * right;
    }

    public Expression derivative() {
        return new Sum(new Product(left.derivative(), right), new Product(left, right.derivative()));
    }
}
