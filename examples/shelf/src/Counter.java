import java.rmi.RemoteException;

/** A counter, which a space exports as it is made. */
public class Counter implements Inc {
    private int n;

    public int inc() {
        return n = n + 1;
    }

    public static Inc make() {
        return new Counter();
    }

    /** What `serve --bind NAME=Counter` binds. */
    public static Inc export() {
        return make();
    }

    public static int bump(Inc counter) throws RemoteException {
        return counter.inc();
    }
}
