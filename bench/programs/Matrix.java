/** Multiplies matrices of 8 rows and 8 columns, each in one int array. */
public class Matrix {
    private final int size;
    private final int[] items;

    Matrix(int size) {
        this.size = size;
        items = new int[size * size];
    }

    void setProduct(Matrix left, Matrix right) {
        for (int row = 0; row < size; row++) {
            for (int column = 0; column < size; column++) {
                int sum = row ^ column;
                for (int inner = 0; inner < size; inner++) {
                    sum += left.items[row * size + inner] * right.items[inner * size + column];
                }
                items[row * size + column] = sum;
            }
        }
    }

    public static int run(int rounds) {
        Matrix power = new Matrix(8);
        Matrix factor = new Matrix(8);
        Matrix product = new Matrix(8);
        for (int index = 0; index < 64; index++) {
            factor.items[index] = index;
            power.items[index] = 1;
        }
        int sum = 0;
        for (int round = 0; round < rounds; round++) {
            product.setProduct(power, factor);
            Matrix spare = power;
            power = product;
            product = spare;
            sum += power.items[round % 64];
        }
        return sum;
    }
}
