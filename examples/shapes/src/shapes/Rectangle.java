package shapes;

public class Rectangle implements Shape {
    final int width;
    final int height;

    public Rectangle(int width, int height) {
        this.width = width;
        this.height = height;
    }

    public int area() {
        return width * height;
    }

    public int sides() {
        return SIDES_OF_A_SQUARE;
    }
}
