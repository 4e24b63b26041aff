package expressions;

public final class Constant implements Expression {
    private final int value;

    public Constant(int value) {
        this.value = value;
    }

    public int value(int x) {
        return value;
    }

    public Expression derivative() {
        return new Constant(0);
    }
}
