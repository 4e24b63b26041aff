package queens;

/** A chess board of any size, on which queens stand one a row. */
public class Board {
    private final int size;
    private final int[] columns;

    public Board(int size) {
        this.size = size;
        columns = new int[size];
    }

    private boolean isFree(int row, int column) {
        for (int above = 0; above < row; above++) {
            int apart = columns[above] - column;
            if (apart == 0 || apart == row - above || apart == above - row) {
                return false;
            }
        }
        return true;
    }

    private int count(int row) {
        if (row == size) {
            return 1;
        }
        int count = 0;
        for (int column = 0; column < size; column++) {
            if (isFree(row, column)) {
                columns[row] = column;
                count += count(row + 1);
            }
        }
        return count;
    }

    private boolean fill(int row) {
        for (int column = 0; row < size && column < size; column++) {
            if (isFree(row, column)) {
                columns[row] = column;
                if (fill(row + 1)) {
                    return true;
                }
            }
        }
        return row == size;
    }

    /** In how many ways the board takes a queen a row, none of which attacks another. */
    public static int solutions(int size) {
        return new Board(size).count(0);
    }

    /** The columns of the first way, or null if there is none. */
    public static int[] first(int size) {
        Board board = new Board(size);
        return board.fill(0) ? board.columns : null;
    }
}
