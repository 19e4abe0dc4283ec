import java.io.ByteArrayOutputStream;
import java.io.DataOutputStream;
import java.io.IOException;
import java.util.ArrayList;
import java.util.HashMap;
import java.util.List;
import java.util.Map;

/**
 * Loads and links the last of the interfaces of `comb` (bench/references.py) by a real Java machine: interfaces over one another, each
 * of which names another first that names none. Usage: java -Xss1g Combs.java COUNT
 */
public class Combs {
    private static final class Loader extends ClassLoader {
        private final Map<String, byte[]> own = new HashMap<>();

        @Override
        protected Class<?> findClass(String name) throws ClassNotFoundException {
            byte[] bytes = own.get(name);
            if (bytes == null) {
                throw new ClassNotFoundException(name);
            }
            return defineClass(name, bytes, 0, bytes.length);
        }
    }

    private static byte[] anInterface(String name, List<String> over) throws IOException {
        List<String> names = new ArrayList<>(List.of(name, "java/lang/Object"));
        names.addAll(over);
        ByteArrayOutputStream bytes = new ByteArrayOutputStream();
        DataOutputStream out = new DataOutputStream(bytes);
        out.writeInt(0xcafebabe);
        out.writeInt(52);
        out.writeShort(2 * names.size() + 1);
        for (int i = 0; i < names.size(); i++) {
            out.writeByte(7);
            out.writeShort(2 * i + 2);
            out.writeByte(1);
            out.writeUTF(names.get(i));
        }
        out.writeShort(0x601);
        out.writeShort(1);
        out.writeShort(3);
        out.writeShort(over.size());
        for (int i = 0; i < over.size(); i++) {
            out.writeShort(2 * i + 5);
        }
        out.writeShort(0);
        out.writeShort(0);
        out.writeShort(0);
        return bytes.toByteArray();
    }

    private static void link(int count) {
        try {
            Loader loader = new Loader();
            for (int n = 0; n < count; n++) {
                loader.own.put("p.T" + n, anInterface("p/T" + n, List.of()));
                List<String> over = n == 0 ? List.of("p/T0") : List.of("p/T" + n, "p/S" + (n - 1));
                loader.own.put("p.S" + n, anInterface("p/S" + n, over));
            }
            long start = System.nanoTime();
            Class<?> last = Class.forName("p.S" + (count - 1), true, loader);
            System.out.printf("%s: %d ms%n", last.getName(), (System.nanoTime() - start) / 1_000_000);
        } catch (IOException | ClassNotFoundException e) {
            throw new IllegalStateException(e);
        }
    }

    public static void main(String[] words) throws InterruptedException {
        int count = Integer.parseInt(words[0]);
        Thread thread = new Thread(null, () -> link(count), "links", 1L << 30);
        thread.start();
        thread.join();
    }
}
