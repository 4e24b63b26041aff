package shapes;

public class Triangle implements Shape {
    private final int base;
    private final int height;

    public Triangle(int base, int height) {
        this.base = base;
        this.height = height;
    }

    public int area() {
        return half(base * height);
    }

    public int sides() {
        return 3;
    }

    private static int half(int n) {
        return n / 2;
    }
}
