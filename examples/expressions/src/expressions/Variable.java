package expressions;

public final class Variable implements Expression {
    public int value(int x) {
        return x;
    }

    public Expression derivative() {
        return new Constant(1);
    }
}
