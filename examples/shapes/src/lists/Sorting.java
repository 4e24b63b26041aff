package lists;

public abstract class Sorting {
    /** Sorts by insertion. */
    public static void sort(int[] items) {
        for (int end = 1; end < items.length; end++) {
            int item = items[end];
            int at = end;
            while (at > 0 && comesBefore(item, items[at - 1])) {
                items[at] = items[at - 1];
                at--;
            }
            items[at] = item;
        }
    }

    static boolean comesBefore(int a, int b) {
        return a < b;
    }
}
