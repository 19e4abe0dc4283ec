import java.io.DataInputStream;
import java.io.IOException;
import java.lang.invoke.MethodHandles;
import java.lang.invoke.MethodType;
import java.nio.file.Files;
import java.nio.file.Path;
import java.util.List;

/**
 * Resolves the references of a folder that bench/real.py wrote, by a real Java machine: those of the file `resolutions`, in order,
 * each class in a ClassLoader under the machine's own. A class is asked by Class.forName, a member by a method handle of the
 * referring class, whose linkage is that of a reference (JVMS SE 8, 5.4.3.5). Usage: java -XX:+UnlockDiagnosticVMOptions
 * -XX:-BytecodeVerificationRemote Resolve.java FOLDER: without verification, as classlink has none.
 */
public class Resolve {
    private static final class Loader extends ClassLoader {
        private final Path folder;

        Loader(Path folder) {
            super(ClassLoader.getPlatformClassLoader());
            this.folder = folder;
        }

        @Override
        protected Class<?> findClass(String name) throws ClassNotFoundException {
            try {
                byte[] bytes = Files.readAllBytes(folder.resolve(name.replace('.', '/') + ".class"));
                return defineClass(name, bytes, 0, bytes.length);
            } catch (IOException e) {
                throw new ClassNotFoundException(name, e);
            }
        }
    }

    /** The constant pool of a class file: of each entry its tag, and its text or its two indices. */
    private static final class Pool {
        final int[] tags;
        final int[] first;
        final int[] second;
        final String[] texts;

        Pool(Path file) throws IOException {
            try (DataInputStream in = new DataInputStream(new java.io.BufferedInputStream(Files.newInputStream(file)))) {
                in.readLong();
                int count = in.readUnsignedShort();
                tags = new int[count];
                first = new int[count];
                second = new int[count];
                texts = new String[count];
                for (int i = 1; i < count; i++) {
                    tags[i] = in.readUnsignedByte();
                    switch (tags[i]) {
                        case 1 -> texts[i] = in.readUTF();
                        case 7, 8, 16 -> first[i] = in.readUnsignedShort();
                        case 9, 10, 11, 12, 18 -> {
                            first[i] = in.readUnsignedShort();
                            second[i] = in.readUnsignedShort();
                        }
                        case 15 -> in.skipBytes(3);
                        case 5, 6 -> {
                            in.readLong();
                            i++;
                        }
                        default -> in.readInt();
                    }
                }
            }
        }

        String className(int index) {
            return texts[first[index]].replace('/', '.');
        }
    }

    private static void resolveMember(Pool pool, int index, Class<?> from, ClassLoader loader) throws ReflectiveOperationException {
        Class<?> owner = Class.forName(pool.className(pool.first[index]), false, loader);
        int pair = pool.second[index];
        String name = pool.texts[pool.first[pair]];
        String descriptor = pool.texts[pool.second[pair]];
        MethodHandles.Lookup lookup = MethodHandles.privateLookupIn(from, MethodHandles.lookup());
        if (pool.tags[index] == 9) {
            Class<?> type = MethodType.fromMethodDescriptorString("()" + descriptor, loader).returnType();
            try {
                lookup.findGetter(owner, name, type);
            } catch (IllegalAccessException e) {
                lookup.findStaticGetter(owner, name, type);
            }
            return;
        }
        MethodType type = MethodType.fromMethodDescriptorString(descriptor, loader);
        if (name.equals("<init>")) {
            lookup.findConstructor(owner, type);
            return;
        }
        try {
            lookup.findVirtual(owner, name, type);
        } catch (IllegalAccessException e) {
            lookup.findStatic(owner, name, type);
        }
    }

    public static void main(String[] words) throws IOException {
        Path folder = Path.of(words[0]);
        List<String> script = Files.readAllLines(folder.resolve("resolutions"));
        long start = System.nanoTime();
        Loader loader = new Loader(folder.resolve("app"));
        int done = 0;
        int failed = 0;
        for (String line : script) {
            String[] asked = line.split(" ");
            int index = Integer.parseInt(asked[3]);
            try {
                Class<?> from = Class.forName(asked[2].replace('/', '.'), false, loader);
                Pool pool = new Pool(folder.resolve("app/" + asked[2] + ".class"));
                if (pool.tags[index] == 7) {
                    Class.forName(pool.className(index), false, loader);
                } else {
                    resolveMember(pool, index, from, loader);
                }
                done++;
            } catch (ReflectiveOperationException | LinkageError | TypeNotPresentException e) {
                failed++;
            }
        }
        System.out.printf("resolved %d, failed %d, %.2f s%n", done, failed, (System.nanoTime() - start) / 1e9);
    }
}
