import java.io.BufferedReader;
import java.io.File;
import java.io.IOException;
import java.io.InputStreamReader;
import java.lang.reflect.InvocationTargetException;
import java.lang.reflect.Method;
import java.lang.reflect.Modifier;
import java.net.URL;
import java.net.URLClassLoader;
import java.util.Arrays;
import java.util.Comparator;

/**
 * With the word `calls` it prints a call of each static method over ints and int arrays, of the class sets that the lines of
 * the input name: folder and classes. With the word `run` it makes the calls that the lines name, and prints how each ends,
 * as rmispace does.
 */
public final class Running {
    private static final int[] INTS = {0, 1, 2, 3, 7, -1, 255, Integer.MIN_VALUE};

    public static void main(String[] words) throws Exception {
        BufferedReader lines = new BufferedReader(new InputStreamReader(System.in));
        for (String line = lines.readLine(); line != null; line = lines.readLine()) {
            String[] asked = line.split(" ");
            if (words[0].equals("calls")) {
                printCalls(asked);
            } else {
                System.out.println(ending(asked));
            }
        }
    }

    /** The class loader has no parent but the boot loader. */
    private static URLClassLoader loader(String folder) throws IOException {
        return new URLClassLoader(new URL[] {new File(folder).toURI().toURL()}, null);
    }

    private static void printCalls(String[] asked) throws Exception {
        try (URLClassLoader loader = loader(asked[0])) {
            for (int place = 1; place < asked.length; place++) {
                Class<?> found;
                try {
                    found = Class.forName(asked[place], true, loader);
                } catch (LinkageError fault) {
                    // What the JDK refuses is what Verification compares.
                    continue;
                }
                Method[] methods = found.getDeclaredMethods();
                Arrays.sort(methods, Comparator.comparing(Method::toString));
                for (Method method : methods) printCall(asked[0], found, method);
            }
        }
    }

    private static void printCall(String folder, Class<?> of, Method method) {
        Class<?> result = method.getReturnType();
        if (!Modifier.isStatic(method.getModifiers()) || !(crosses(result) || result == void.class)) return;
        StringBuilder descriptor = new StringBuilder("(");
        StringBuilder values = new StringBuilder();
        int drawn = (folder + method).hashCode() >>> 1;
        for (Class<?> parameter : method.getParameterTypes()) {
            if (!crosses(parameter)) return;
            int n = INTS[drawn % INTS.length];
            drawn = drawn / INTS.length + 5;
            descriptor.append(parameter == int.class ? "I" : "[I");
            values.append(' ').append(parameter == int.class ? "" + n : n == 0 ? "null" : "[" + n + ",3,-5]");
        }
        descriptor.append(result == void.class ? ")V" : result == int.class ? ")I" : ")[I");
        System.out.println(folder + " " + of.getName() + " " + method.getName() + descriptor + values);
    }

    private static boolean crosses(Class<?> type) {
        return type == int.class || type == int[].class;
    }

    private static String ending(String[] asked) throws Exception {
        try (URLClassLoader loader = loader(asked[0])) {
            Class<?> found = Class.forName(asked[1], true, loader);
            int end = asked[2].indexOf('(');
            for (Method method : found.getDeclaredMethods()) {
                if (method.getName().equals(asked[2].substring(0, end))) return ending(method, asked);
            }
            return "absent";
        }
    }

    private static String ending(Method method, String[] asked) throws Exception {
        Object[] values = new Object[asked.length - 3];
        for (int place = 0; place < values.length; place++) values[place] = value(asked[place + 3]);
        method.setAccessible(true);
        try {
            Object result = method.invoke(null, values);
            if (method.getReturnType() == void.class) return "returned";
            return "returned " + (result instanceof int[] ? Arrays.toString((int[]) result).replace(" ", "") : "" + result);
        } catch (InvocationTargetException thrown) {
            return "threw " + thrown.getCause().getClass().getName().replace('.', '/');
        }
    }

    private static Object value(String word) {
        if (word.equals("null")) return null;
        if (!word.startsWith("[")) return Integer.parseInt(word);
        return Arrays.stream(word.substring(1, word.length() - 1).split(",")).mapToInt(Integer::parseInt).toArray();
    }
}
