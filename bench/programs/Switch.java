/** A machine with six operations by table, and three by keys that are far apart. */
public class Switch {
    static int operation(int operation, int accumulator, int operand) {
        switch (operation) {
            case 0:
                return accumulator + operand;
            case 1:
                return accumulator - operand;
            case 2:
                return accumulator ^ operand;
            case 3:
                return accumulator << 1;
            case 4:
                return accumulator >> 1;
            case 5:
                return far(accumulator & 0x3000, operand);
            default:
                return -accumulator;
        }
    }

    static int far(int key, int operand) {
        switch (key) {
            case 0:
                return operand;
            case 0x1000:
                return operand * 3;
            case 0x3000:
                return ~operand;
            default:
                return key;
        }
    }

    public static int run(int rounds) {
        int accumulator = 1;
        for (int round = 0; round < rounds; round++) {
            accumulator = operation(round % 7, accumulator, round);
        }
        return accumulator;
    }
}
