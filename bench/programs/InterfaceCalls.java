/** Calls by an interface of objects of three classes, in turn. */
public class InterfaceCalls {
    public static int run(int rounds) {
        Counting first = new Adding(3);
        Counting second = new Tripling();
        Counting third = new Mixing(new Adding(7), second);
        int count = 0;
        for (int round = 0; round < rounds; round++) {
            count = first.after(count);
            Counting last = first;
            first = second;
            second = third;
            third = last;
        }
        return count;
    }
}

interface Counting {
    int after(int count);
}

class Adding implements Counting {
    private final int step;

    Adding(int step) {
        this.step = step;
    }

    public int after(int count) {
        return count + step;
    }
}

class Tripling implements Counting {
    public int after(int count) {
        return count * 3 + 1;
    }
}

class Mixing implements Counting {
    private final Counting one;
    private final Counting other;

    Mixing(Counting one, Counting other) {
        this.one = one;
        this.other = other;
    }

    public int after(int count) {
        return one.after(count) ^ other.after(count);
    }
}
