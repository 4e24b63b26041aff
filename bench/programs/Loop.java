/** Ints alone: shifts, a remainder and a branch in each round. */
public class Loop {
    public static int run(int rounds) {
        int hash = 1;
        for (int round = 0; round < rounds; round++) {
            hash ^= hash << 13;
            hash ^= hash >>> 17;
            hash ^= hash << 5;
            if (hash % 3 == 0) {
                hash += round;
            }
        }
        return hash;
    }
}
