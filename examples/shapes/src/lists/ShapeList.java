package lists;

import shapes.Shape;

/** A linked list of shapes. */
public class ShapeList {
    private Node first;
    private int length;

    public void add(Shape shape) {
        first = new Node(shape, first);
        length = length + 1;
    }

    public int length() {
        return length;
    }

    public int[] areas() {
        int[] areas = new int[length];
        int at = 0;
        for (Node node = first; node != null; node = node.next) {
            areas[at] = node.shape.area();
            at++;
        }
        return areas;
    }
}
