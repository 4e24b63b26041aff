package expressions;

public abstract class Polynomial {
    /** 3xx + 2x + 1. */
    static Expression example() {
        Expression x = new Variable();
        Expression square = new Product(new Constant(3), new Product(x, x));
        return new Sum(square, new Sum(new Product(new Constant(2), x), new Constant(1)));
    }

    public static int value(int x) {
        return example().value(x);
    }

    /** The value of a derivative: order 0 is that of the expression itself. */
    public static int derivative(int order, int x) {
        Expression expression = example();
        for (int n = 0; n < order; n++) {
            expression = expression.derivative();
        }
        return expression.value(x);
    }

    /** Whether the derivative is an instance of Sum, and then the value of its left side by a cast. */
    public static int leftOfDerivative(int x) {
        Expression expression = example().derivative();
        return expression instanceof Sum ? ((Sum) expression).left.value(x) : -1;
    }

    /** A cast that fails. */
    public static int constant(int x) {
        return ((Constant) example()).value(x);
    }
}
