package ninkoda.recorder;

import java.util.ArrayList;
import java.util.List;
import org.objectweb.asm.Handle;
import org.objectweb.asm.MethodVisitor;
import org.objectweb.asm.Opcodes;

/** Puts a call of {@link Stores} at each place of one method where a reference is stored into an object. */
final class StoreSites extends MethodVisitor {
    private static final String STORES = "ninkoda/recorder/Stores";
    private static final String UNSAFE = "jdk/internal/misc/Unsafe";
    private static final String OBJECT = "Ljava/lang/Object;";

    // A constructor may not hand on `this` before its call of super(). The sites before that call
    // wait for it.
    private boolean beforeSuper;
    private int unfinishedObjects;
    private final List<Integer> waiting = new ArrayList<>();

    private final boolean isBegin;

    /** A method, which may be a constructor, and may be the one whose call begins the record. */
    StoreSites(MethodVisitor method, boolean isConstructor, boolean isBegin) {
        super(Instrumenter.ASM, method);
        beforeSuper = isConstructor;
        this.isBegin = isBegin;
    }

    @Override
    public void visitCode() {
        super.visitCode();
        if (isBegin) {
            call("begin", "()V");
        }
    }

    /** A field of a reference: recorded after the store. */
    @Override
    public void visitFieldInsn(int code, String owner, String name, String type) {
        boolean isStore = code == Opcodes.PUTFIELD && (type.startsWith("L") || type.startsWith("["));
        if (!isStore) {
            super.visitFieldInsn(code, owner, name, type);
        } else if (beforeSuper) {
            super.visitFieldInsn(code, owner, name, type);
            waiting.add(FieldSites.add(owner, name));
        } else {
            super.visitInsn(Opcodes.DUP2);
            super.visitFieldInsn(code, owner, name, type);
            super.visitInsn(Opcodes.POP);
            callOfField(FieldSites.add(owner, name));
        }
    }

    /** An element of an array of references: stored and recorded by one call. */
    @Override
    public void visitInsn(int code) {
        if (code == Opcodes.AASTORE) {
            call("element", "([" + OBJECT + "I" + OBJECT + ")V");
        } else {
            super.visitInsn(code);
        }
    }

    @Override
    public void visitTypeInsn(int code, String type) {
        if (code == Opcodes.NEW && beforeSuper) {
            unfinishedObjects++;
        }
        super.visitTypeInsn(code, type);
    }

    /** Copies of arrays and objects, and the stores that java.util.concurrent makes by its own means. */
    @Override
    public void visitMethodInsn(int code, String owner, String name, String type, boolean isInterface) {
        if (owner.equals("java/lang/System") && name.equals("arraycopy")) {
            call("arraycopy", type);
            return;
        }
        String ofUnsafe = owner.equals(UNSAFE) ? callFor(name, type) : null;
        if (ofUnsafe != null) {
            call(ofUnsafe, "(L" + UNSAFE + ";" + type.substring(1));
            return;
        }
        super.visitMethodInsn(code, owner, name, type, isInterface);
        if (name.equals("clone") && type.equals("()" + OBJECT) && isCopyOfFields(code, owner)) {
            callOfCopy();
        }
        if (name.equals("<init>") && beforeSuper) {
            afterConstructor();
        }
    }

    /** A lambda's object holds what it captured, and the code of its class can't be changed. */
    @Override
    public void visitInvokeDynamicInsn(String name, String type, Handle bootstrap, Object... arguments) {
        super.visitInvokeDynamicInsn(name, type, bootstrap, arguments);
        if (bootstrap.getOwner().equals("java/lang/invoke/LambdaMetafactory") && !type.startsWith("()")) {
            callOfCopy();
        }
    }

    // The call of Stores that stands for a call of Unsafe, or null where that stores no reference.
    private static String callFor(String name, String type) {
        String place = "(" + OBJECT + "J";
        if (type.equals(place + OBJECT + ")V") && name.startsWith("putReference")) {
            return "put";
        }
        if (type.equals(place + OBJECT + OBJECT + ")Z") && name.matches("(c|weakC)ompareAndSetReference.*")) {
            return "compareAndSet";
        }
        if (type.equals(place + OBJECT + OBJECT + ")" + OBJECT) && name.startsWith("compareAndExchangeReference")) {
            return "compareAndExchange";
        }
        if (type.equals(place + OBJECT + ")" + OBJECT) && name.startsWith("getAndSetReference")) {
            return "getAndSet";
        }
        return null;
    }

    private static boolean isCopyOfFields(int code, String owner) {
        boolean isOfObject = code == Opcodes.INVOKESPECIAL && owner.equals("java/lang/Object");
        return isOfObject || owner.startsWith("[L") || owner.startsWith("[[");
    }

    private void afterConstructor() {
        if (unfinishedObjects > 0) {
            unfinishedObjects--;
            return;
        }
        beforeSuper = false;
        for (int site : waiting) {
            super.visitVarInsn(Opcodes.ALOAD, 0);
            callOfField(site);
        }
    }

    private void callOfField(int site) {
        super.visitLdcInsn(site);
        call("field", "(" + OBJECT + "I)V");
    }

    private void callOfCopy() {
        super.visitInsn(Opcodes.DUP);
        call("copied", "(" + OBJECT + ")V");
    }

    private void call(String name, String type) {
        super.visitMethodInsn(Opcodes.INVOKESTATIC, STORES, name, type, false);
    }
}
