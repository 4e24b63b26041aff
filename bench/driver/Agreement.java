import java.lang.reflect.InvocationTargetException;
import java.lang.reflect.Method;
import java.nio.file.Files;
import java.nio.file.Path;
import java.nio.file.Paths;

/** Answers the calls that are named line by line on standard input, as rmispace prints them; "refused" where the class does not verify. */
public class Agreement {
    private static class Loader extends ClassLoader {
        Class<?> define(String name, byte[] bytes) {
            return defineClass(name, bytes, 0, bytes.length);
        }
    }

    private static String answer(Path folder, String[] words) throws Exception {
        Loader loader = new Loader();
        Class<?> found;
        try {
            loader.define(words[0], Files.readAllBytes(folder.resolve(words[0]).resolve(words[0] + ".class")));
            found = Class.forName(words[0], true, loader);
        } catch (LinkageError fault) {
            return "refused";
        }
        // What does not end in rmispace within its fuel, or does not start there, is not called.
        if (words[1].equals("spent") || words[1].equals("outside")) return words[1];
        Object[] values = new Object[words.length - 3];
        for (int place = 0; place < values.length; place++) values[place] = Integer.parseInt(words[place + 3]);
        Method method = found.getDeclaredMethods()[0];
        method.setAccessible(true);
        try {
            Object value = method.invoke(null, values);
            return value == null ? "returned" : "returned " + value;
        } catch (InvocationTargetException thrown) {
            return "threw " + thrown.getCause().getClass().getName().replace('.', '/');
        }
    }

    public static void main(String[] words) throws Exception {
        Path folder = Paths.get(words[0]);
        for (String line : Files.readAllLines(folder.resolve("asked"))) {
            System.out.println(answer(folder, line.split(" ")));
        }
    }
}
