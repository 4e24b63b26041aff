/** Virtual calls over a class and two below it, one of which calls its superclass's method. */
public class VirtualCalls {
    public static int run(int rounds) {
        Walker walker = new Walker();
        Walker runner = new Runner();
        Walker jumper = new Jumper();
        int sum = 0;
        for (int round = 0; round < rounds; round++) {
            walker.go();
            runner.go();
            jumper.go();
            sum ^= walker.position() + runner.position() + jumper.position();
        }
        return sum;
    }
}

class Walker {
    int position;

    void go() {
        position += step();
    }

    int step() {
        return 1;
    }

    int position() {
        return position;
    }
}

class Runner extends Walker {
    int step() {
        return 3;
    }
}

final class Jumper extends Runner {
    private boolean isUp;

    void go() {
        isUp = !isUp;
        super.go();
    }

    int step() {
        return isUp ? super.step() + 4 : -1;
    }
}
