import java.io.IOException;
import java.nio.file.Files;
import java.nio.file.Path;
import java.util.ArrayList;
import java.util.List;
import java.util.concurrent.atomic.AtomicInteger;

/**
 * Loads or links the classes of a folder that bench/real.py wrote, by a real Java machine: those of `app` stand in a ClassLoader
 * under the machine's own, which several threads may load through at once, and the names of `loads` are taken in order. Usage: java
 * -XX:+UnlockDiagnosticVMOptions -XX:-BytecodeVerificationRemote Real.java FOLDER load|link [THREADS]: without verification, as
 * classlink has none.
 */
public class Real {
    private static final class Loader extends ClassLoader {
        static {
            registerAsParallelCapable();
        }

        private final Path folder;

        Loader(Path folder) {
            super(ClassLoader.getPlatformClassLoader());
            this.folder = folder;
        }

        @Override
        protected Class<?> findClass(String name) throws ClassNotFoundException {
            try {
                byte[] bytes = Files.readAllBytes(folder.resolve(name.replace('.', '/') + ".class"));
                return defineClass(name, bytes, 0, bytes.length);
            } catch (IOException e) {
                throw new ClassNotFoundException(name, e);
            }
        }
    }

    private final List<String> script;
    private final Loader loader;
    private final boolean links;
    private final AtomicInteger next = new AtomicInteger();
    private final AtomicInteger done = new AtomicInteger();

    private Real(Path folder, boolean links) throws IOException {
        script = Files.readAllLines(folder.resolve("loads"));
        loader = new Loader(folder.resolve("app"));
        this.links = links;
    }

    /** Takes names until none is left. */
    private void serve() {
        for (int at = next.getAndIncrement(); at < script.size(); at = next.getAndIncrement()) {
            try {
                Class<?> found = Class.forName(script.get(at).split(" ")[2].replace('/', '.'), false, loader);
                if (links) {
                    // the machine links a class before it tells its constructors
                    found.getDeclaredConstructors();
                }
                done.incrementAndGet();
            } catch (ClassNotFoundException | LinkageError e) {
                // (counted below as what is not done)
            }
        }
    }

    public static void main(String[] words) throws IOException, InterruptedException {
        Real real = new Real(Path.of(words[0]), words[1].equals("link"));
        int count = words.length > 2 ? Integer.parseInt(words[2]) : 1;
        long start = System.nanoTime();
        List<Thread> threads = new ArrayList<>();
        for (int i = 0; i < count; i++) {
            threads.add(new Thread(real::serve));
        }
        threads.forEach(Thread::start);
        for (Thread thread : threads) {
            thread.join();
        }
        int done = real.done.get();
        double seconds = (System.nanoTime() - start) / 1e9;
        System.out.printf("%sed by %d: %d, failed %d, %.2f s%n", words[1], count, done, real.script.size() - done, seconds);
    }
}
