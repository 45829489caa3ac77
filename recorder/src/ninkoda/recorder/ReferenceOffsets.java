package ninkoda.recorder;

import java.lang.reflect.Field;
import java.lang.reflect.Modifier;
import java.util.HashMap;
import java.util.Map;
import jdk.internal.misc.Unsafe;

/** Where objects have their references: offsets in bytes from the object's begin. */
final class ReferenceOffsets {
    private static final Unsafe UNSAFE = Unsafe.getUnsafe();
    private static final Map<Class<?>, long[]> known = new HashMap<>();

    private ReferenceOffsets() {}

    /** All elements of an array of references; of another object the fields that reflection shows. */
    static long[] of(Object object) {
        return object instanceof Object[] array ? ofArray(array.length) : ofClass(object.getClass());
    }

    /** An element of an array of references. */
    static long ofElement(int index) {
        return Unsafe.ARRAY_OBJECT_BASE_OFFSET + (long) Unsafe.ARRAY_OBJECT_INDEX_SCALE * index;
    }

    private static long[] ofArray(int length) {
        long[] offsets = new long[length];
        for (int index = 0; index < length; index++) {
            offsets[index] = ofElement(index);
        }
        return offsets;
    }

    // Those of a class are those of the class above it and its own.
    private static synchronized long[] ofClass(Class<?> type) {
        if (type == null || type.isArray()) {
            return new long[0];
        }
        long[] offsets = known.get(type);
        if (offsets == null) {
            offsets = ofClass(type.getSuperclass());
            for (Field field : type.getDeclaredFields()) {
                if (!Modifier.isStatic(field.getModifiers()) && !field.getType().isPrimitive()) {
                    offsets = with(offsets, UNSAFE.objectFieldOffset(field));
                }
            }
            known.put(type, offsets);
        }
        return offsets;
    }

    private static long[] with(long[] offsets, long offset) {
        long[] longer = new long[offsets.length + 1];
        System.arraycopy(offsets, 0, longer, 0, offsets.length);
        longer[offsets.length] = offset;
        return longer;
    }
}
