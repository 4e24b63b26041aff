/** An int array: a sieve of 256 numbers in each round. */
public class Arrays {
    static int primes(int[] sieve) {
        for (int n = 0; n < sieve.length; n++) {
            sieve[n] = 1;
        }
        int count = 0;
        for (int n = 2; n < sieve.length; n++) {
            count += sieve[n];
            for (int multiple = n * n; multiple < sieve.length && sieve[n] == 1; multiple += n) {
                sieve[multiple] = 0;
            }
        }
        return count;
    }

    public static int run(int rounds) {
        int[] sieve = new int[256];
        int sum = 0;
        for (int round = 0; round < rounds; round++) {
            sum += primes(sieve);
        }
        return sum;
    }
}
