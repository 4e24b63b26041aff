import java.rmi.Remote;
import java.rmi.RemoteException;

/** What keeps a counter of another space. */
public interface Keeper extends Remote {
    /** Keeps a counter, in place of the one before. */
    void keep(Inc counter) throws RemoteException;

    /** Lets the counter go. */
    void drop() throws RemoteException;

    /** Counts at the counter that is kept. */
    int count() throws RemoteException;
}
