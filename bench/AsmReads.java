import java.io.IOException;
import java.nio.ByteBuffer;
import java.nio.file.Files;
import java.nio.file.Paths;
import java.util.ArrayList;
import java.util.List;
import org.objectweb.asm.ClassReader;
import org.objectweb.asm.ClassVisitor;
import org.objectweb.asm.FieldVisitor;
import org.objectweb.asm.MethodVisitor;
import org.objectweb.asm.Opcodes;

/**
 * Reads each class file of a stream (stream.py) by ASM and visits it with its code, pass after pass, for the rate beside
 * which that of cl_classfile is put. Usage: java -XX:+UseSerialGC -cp /usr/share/java/asm.jar:. AsmReads STREAM PASSES,
 * with ASM from Debian's libasm-java.
 */
public class AsmReads {
    private static final class Fields extends FieldVisitor {
        Fields() {
            super(Opcodes.ASM9);
        }
    }

    private static final class Methods extends MethodVisitor {
        Methods() {
            super(Opcodes.ASM9);
        }
    }

    private static final class Visitor extends ClassVisitor {
        Visitor() {
            super(Opcodes.ASM9);
        }

        @Override
        public FieldVisitor visitField(int access, String name, String type, String signature, Object value) {
            return new Fields();
        }

        @Override
        public MethodVisitor visitMethod(int access, String name, String type, String signature, String[] thrown) {
            return new Methods();
        }
    }

    public static void main(String[] words) throws IOException {
        ByteBuffer all = ByteBuffer.wrap(Files.readAllBytes(Paths.get(words[0])));
        List<byte[]> files = new ArrayList<>();
        while (all.remaining() >= 4) {
            byte[] file = new byte[all.getInt()];
            all.get(file);
            files.add(file);
        }
        for (int round = 0; round < Integer.parseInt(words[1]); round++) {
            long start = System.nanoTime();
            int good = 0;
            for (byte[] file : files) {
                try {
                    new ClassReader(file).accept(new Visitor(), 0);
                    good++;
                } catch (RuntimeException e) {
                    // It is none that ASM reads, and is not counted.
                }
            }
            System.out.printf("%d of %d files in %d us%n", good, files.size(), (System.nanoTime() - start) / 1000);
        }
    }
}
