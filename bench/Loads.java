import java.io.IOException;
import java.nio.file.Files;
import java.nio.file.Paths;
import java.util.ArrayList;
import java.util.HashMap;
import java.util.List;
import java.util.Map;

/** Serves a bundle of one loader by a real Java machine: its classes stand in a ClassLoader, its names are loaded in order. */
public class Loads {
    private static final class Loader extends ClassLoader {
        private final Map<String, byte[]> own = new HashMap<>();

        @Override
        protected Class<?> findClass(String name) throws ClassNotFoundException {
            byte[] bytes = own.get(name);
            if (bytes == null) {
                throw new ClassNotFoundException(name);
            }
            return defineClass(name, bytes, 0, bytes.length);
        }
    }

    private static byte[] bytesOf(String digits) {
        byte[] bytes = new byte[digits.length() / 2];
        for (int i = 0; i < bytes.length; i++) {
            bytes[i] = (byte) Integer.parseInt(digits.substring(2 * i, 2 * i + 2), 16);
        }
        return bytes;
    }

    private static void serve(String bundle) throws IOException, ClassNotFoundException {
        long start = System.nanoTime();
        Loader loader = new Loader();
        List<String> loads = new ArrayList<>();
        String name = null;
        for (String line : Files.readAllLines(Paths.get(bundle))) {
            if (line.startsWith("%class ")) {
                name = line.split(" ")[2].replace('/', '.');
            } else if (line.startsWith("@hex ") && !name.startsWith("java.")) {
                loader.own.put(name, bytesOf(line.substring(5)));
            } else if (line.startsWith("load ")) {
                loads.add(line.split(" ")[2].replace('/', '.'));
            }
        }
        long read = System.nanoTime();
        StringBuilder answers = new StringBuilder();
        for (int i = 0; i < loads.size(); i++) {
            answers.append(i + 1).append(" class ").append(loader.loadClass(loads.get(i)).getName()).append('\n');
        }
        System.out.print(answers);
        System.err.printf("read %.3f s, loaded %.3f s%n", (read - start) / 1e9, (System.nanoTime() - read) / 1e9);
    }

    public static void main(String[] words) throws InterruptedException {
        // A chain of superclasses is loaded by recursion, which wants a large stack.
        Thread thread = new Thread(null, () -> {
            try {
                serve(words[0]);
            } catch (IOException | ClassNotFoundException e) {
                throw new IllegalStateException(e);
            }
        }, "loads", 1L << 30);
        thread.start();
        thread.join();
    }
}
