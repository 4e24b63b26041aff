import java.lang.reflect.InvocationTargetException;
import java.lang.reflect.Method;

/** Calls a static method and prints its outcome as rmispace does. Words: the class, the method's name, and its arguments: ints, or arrays as [1,-2]. */
public final class Call {
    private static Object value(String word) {
        if (word.equals("null")) return null;
        if (!word.startsWith("[")) return Integer.parseInt(word);
        String items = word.substring(1, word.length() - 1);
        return items.isEmpty() ? new int[0] : java.util.Arrays.stream(items.split(",")).mapToInt(Integer::parseInt).toArray();
    }

    private static String text(Object value) {
        return value instanceof int[] ? java.util.Arrays.toString((int[]) value).replace(" ", "") : String.valueOf(value);
    }

    private static Method method(String type, String name) throws ClassNotFoundException {
        for (Method method : Class.forName(type.replace('/', '.')).getDeclaredMethods()) {
            if (method.getName().equals(name)) return method;
        }
        throw new IllegalArgumentException(type + " has no method " + name);
    }

    public static void main(String[] words) throws Exception {
        Method method = method(words[0], words[1]);
        Object[] values = new Object[words.length - 2];
        for (int index = 0; index < values.length; index++) values[index] = value(words[index + 2]);
        method.setAccessible(true);
        try {
            Object result = method.invoke(null, values);
            System.out.println(method.getReturnType() == void.class ? "returned" : "returned " + text(result));
        } catch (InvocationTargetException thrown) {
            System.out.println("threw " + thrown.getCause().getClass().getName().replace('.', '/'));
        }
    }
}
