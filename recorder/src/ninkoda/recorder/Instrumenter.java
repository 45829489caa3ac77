package ninkoda.recorder;

import java.io.IOException;
import java.lang.instrument.ClassFileTransformer;
import java.security.ProtectionDomain;
import org.objectweb.asm.ClassReader;
import org.objectweb.asm.ClassVisitor;
import org.objectweb.asm.ClassWriter;
import org.objectweb.asm.MethodVisitor;
import org.objectweb.asm.Opcodes;

/** Puts the calls of {@link StoreSites} into every class but those that the recorder itself stands on. */
final class Instrumenter implements ClassFileTransformer {
    static final int ASM = Opcodes.ASM9;

    private static final String[] LEFT_OUT = {
        "ninkoda/recorder/", "org/objectweb/asm/", "sun/instrument/", "jdk/internal/misc/", "["
    };

    private final String from;

    /** The first call of the method {@code package.Class.method} begins the record; with an empty name no call does. */
    Instrumenter(String from) {
        this.from = from;
    }

    /** Whether the stores of the class, its name with slashes, are recorded. */
    static boolean isRecorded(String name) {
        for (String start : LEFT_OUT) {
            if (name.startsWith(start)) {
                return false;
            }
        }
        return true;
    }

    /** Reads a class of this virtual machine, whose form may be newer than ASM knows. */
    void tryOut() throws IOException {
        try {
            instrumented("java.lang.Object", ClassLoader.getSystemResourceAsStream("java/lang/Object.class").readAllBytes());
        } catch (IllegalArgumentException e) {
            throw new IllegalArgumentException("this ASM can't read the classes of this JDK: " + e.getMessage());
        }
    }

    @Override
    public byte[] transform(ClassLoader loader, String name, Class<?> old, ProtectionDomain domain, byte[] code) {
        if (name == null || !isRecorded(name)) {
            return null;
        }
        boolean isBegun = OwnWork.begin();
        try {
            return instrumented(name.replace('/', '.'), code);
        } catch (RuntimeException e) {
            System.err.println("recorder: the stores of " + name + " are not recorded: " + e);
            return null;
        } finally {
            if (isBegun) {
                OwnWork.end();
            }
        }
    }

    private byte[] instrumented(String className, byte[] code) {
        ClassReader reader = new ClassReader(code);
        ClassWriter writer = new ClassWriter(reader, ClassWriter.COMPUTE_MAXS);
        ClassVisitor visitor = new ClassVisitor(ASM, writer) {
            @Override
            public MethodVisitor visitMethod(int access, String name, String type, String signature, String[] thrown) {
                MethodVisitor method = super.visitMethod(access, name, type, signature, thrown);
                return new StoreSites(method, name.equals("<init>"), from.equals(className + "." + name));
            }
        };
        reader.accept(visitor, 0);
        return writer.toByteArray();
    }
}
