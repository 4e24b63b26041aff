import java.rmi.RemoteException;

/** A shelf with room for one counter. Its static methods are what a space starts by itself. */
public class Shelf implements Keeper {
    private Inc kept;

    public void keep(Inc counter) {
        kept = counter;
    }

    public void drop() {
        kept = null;
    }

    public int count() throws RemoteException {
        return kept.inc();
    }

    /** What `serve --bind NAME=Shelf` binds. */
    public static Keeper export() {
        return new Shelf();
    }

    public static void put(Keeper shelf, Inc counter) throws RemoteException {
        shelf.keep(counter);
    }

    public static void clear(Keeper shelf) throws RemoteException {
        shelf.drop();
    }

    public static int countAt(Keeper shelf) throws RemoteException {
        return shelf.count();
    }
}
