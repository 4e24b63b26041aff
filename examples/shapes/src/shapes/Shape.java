package shapes;

/** What has an area. */
public interface Shape {
    int SIDES_OF_A_SQUARE = 4;

    int area();

    int sides();
}
