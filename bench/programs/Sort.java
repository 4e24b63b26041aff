/** Sorts an array of 100 pseudo-random numbers by a heap in each round. */
public class Sort {
    static void sift(int[] heap, int top, int length) {
        int item = heap[top];
        int child = 2 * top + 1;
        while (child < length) {
            if (child + 1 < length && heap[child] < heap[child + 1]) {
                child++;
            }
            if (heap[child] <= item) {
                break;
            }
            heap[top] = heap[child];
            top = child;
            child = 2 * top + 1;
        }
        heap[top] = item;
    }

    static void sort(int[] items) {
        for (int top = items.length / 2 - 1; top >= 0; top--) {
            sift(items, top, items.length);
        }
        for (int last = items.length - 1; last > 0; last--) {
            int greatest = items[0];
            items[0] = items[last];
            items[last] = greatest;
            sift(items, 0, last);
        }
    }

    public static int run(int rounds) {
        int[] items = new int[100];
        int seed = 1;
        int sum = 0;
        for (int round = 0; round < rounds; round++) {
            for (int index = 0; index < items.length; index++) {
                seed = seed * 1103515245 + 12345;
                items[index] = seed >>> 16;
            }
            sort(items);
            sum = sum * 31 + items[round % items.length];
        }
        return sum;
    }
}
