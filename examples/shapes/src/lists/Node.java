package lists;

import shapes.Shape;

class Node {
    final Shape shape;
    Node next;

    Node(Shape shape, Node next) {
        this.shape = shape;
        this.next = next;
    }
}
