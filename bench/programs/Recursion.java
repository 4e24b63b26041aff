/** Static calls: the Fibonacci numbers by their definition. */
public class Recursion {
    static int fibonacci(int n) {
        return n < 2 ? n : fibonacci(n - 1) + fibonacci(n - 2);
    }

    public static int run(int rounds) {
        int sum = 0;
        for (int round = 0; round < rounds; round++) {
            sum += fibonacci(12 + round % 4);
        }
        return sum;
    }
}
