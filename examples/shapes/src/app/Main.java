package app;

import lists.ShapeList;
import lists.Sorting;
import shapes.Rectangle;
import shapes.Shape;
import shapes.Square;
import shapes.Triangle;

public class Main {
    static Shape shape(int kind, int size) {
        switch (kind) {
            case 0:
                return new Square(size);
            case 1:
                return new Rectangle(size, size + 1);
            case 2:
                return new Triangle(size, 2 * size);
            default:
                return null;
        }
    }

    public static int[] areas(int count) {
        ShapeList list = new ShapeList();
        for (int n = 0; n < count; n++) {
            list.add(shape(n % 3, n));
        }
        int[] areas = list.areas();
        Sorting.sort(areas);
        return areas;
    }

    public static int sides(int kind) {
        Shape shape = shape(kind, 1);
        if (shape instanceof Rectangle) {
            return ((Rectangle) shape).sides();
        }
        return shape.sides();
    }

    /** A state machine: reads the digits of a number and counts the runs of odd ones. */
    public static int runsOfOddDigits(int number) {
        int state = 0;
        int runs = 0;
        while (number != 0) {
            int odd = number % 10 % 2;
            switch (state * 10 + odd) {
                case 0:
                    break;
                case 1:
                    runs++;
                    state = 1;
                    break;
                case 10:
                    state = 0;
                    break;
                default:
                    break;
            }
            number = number / 10;
        }
        return runs;
    }
}
