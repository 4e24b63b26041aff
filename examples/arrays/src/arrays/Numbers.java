package arrays;

/** Arrays of ints. */
public abstract class Numbers {
    /** The prime numbers below a bound. */
    public static int[] primes(int bound) {
        int[] crossed = new int[bound];
        int count = 0;
        for (int n = 2; n < bound; n++) {
            if (crossed[n] == 0) {
                count++;
                for (int multiple = 2 * n; multiple < bound; multiple += n) {
                    crossed[multiple] = 1;
                }
            }
        }
        int[] primes = new int[count];
        for (int n = bound - 1; n >= 2; n--) {
            if (crossed[n] == 0) {
                primes[--count] = n;
            }
        }
        return primes;
    }

    /** The index of an item in a sorted array, or -1. */
    public static int search(int[] items, int item) {
        int low = 0;
        int high = items.length;
        while (low < high) {
            int middle = (low + high) >>> 1;
            if (items[middle] == item) {
                return middle;
            }
            if (items[middle] < item) {
                low = middle + 1;
            } else {
                high = middle;
            }
        }
        return -1;
    }

    /** The items from the last to the first. */
    public static int[] reversed(int[] items) {
        int[] reversed = new int[items.length];
        for (int index = 0; index < items.length; index++) {
            reversed[items.length - 1 - index] = items[index];
        }
        return reversed;
    }

    public static int item(int[] items, int index) {
        return items[index];
    }
}
