/** Fields of one object, read and written in each round. */
public class Fields {
    int low = 1;
    int high;
    boolean isOdd;

    public static int run(int rounds) {
        Fields state = new Fields();
        for (int round = 0; round < rounds; round++) {
            state.low = state.low * 5 + round;
            state.high += state.low;
            state.isOdd = !state.isOdd;
            if (state.isOdd) {
                state.low ^= state.high;
            }
        }
        return state.low + state.high;
    }
}
