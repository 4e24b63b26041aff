import java.io.BufferedReader;
import java.io.File;
import java.io.IOException;
import java.io.InputStreamReader;
import java.net.URL;
import java.net.URLClassLoader;

/** Links the classes that each line of the input names after their folder, and prints those that the JVM refuses. */
public final class Verification {
    public static void main(String[] words) throws IOException {
        boolean says = words.length > 0 && words[0].equals("--why");
        BufferedReader lines = new BufferedReader(new InputStreamReader(System.in));
        for (String line = lines.readLine(); line != null; line = lines.readLine()) {
            String[] asked = line.split(" ");
            System.out.println(refused(asked, says).trim());
        }
    }

    /** A class is verified as it is initialized (JVMS 5.4.1); the class loader has no parent but the boot loader. */
    private static String refused(String[] asked, boolean says) throws IOException {
        StringBuilder refused = new StringBuilder();
        URL[] folder = {new File(asked[0]).toURI().toURL()};
        try (URLClassLoader loader = new URLClassLoader(folder, null)) {
            for (int place = 1; place < asked.length; place++) {
                try {
                    Class.forName(asked[place], true, loader);
                } catch (ClassNotFoundException | LinkageError fault) {
                    refused.append(says ? fault.toString() : asked[place]).append(' ');
                }
            }
        }
        return refused.toString();
    }
}
