import java.rmi.Remote;
import java.rmi.RemoteException;

/** What counts. */
public interface Inc extends Remote {
    /** Adds one to the count, and returns it. */
    int inc() throws RemoteException;
}
