package shapes;

public final class Square extends Rectangle {
    public Square(int side) {
        super(side, side);
    }

    public boolean fitsInto(Rectangle other) {
        return width <= other.width && height <= other.height;
    }
}
