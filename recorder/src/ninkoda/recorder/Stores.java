package ninkoda.recorder;

import jdk.internal.misc.Unsafe;

/**
 * What instrumented code calls at each store of a reference.
 *
 * <p>One lock stands around the record, so its stores have one order. A store is recorded after it was made, with what the
 * slot then holds: where threads race for a slot, the last line of the trace about it is what it
 * holds.
 */
public final class Stores {
    private static final Unsafe UNSAFE = Unsafe.getUnsafe();
    private static final Object LOCK = new Object();
    // Null once it is written.
    private static Recording recording;
    private static volatile boolean isOn;

    private Stores() {}

    static void prepare(Recording begun) {
        recording = begun;
    }

    /** Begins the record; later calls do nothing. */
    public static void begin() {
        synchronized (LOCK) {
            isOn = recording != null;
        }
    }

    /** Ends the record where the program ends. */
    static void end() {
        OwnWork.begin();
        synchronized (LOCK) {
            write();
        }
    }

    /** The field of the site was stored. */
    public static void field(Object holder, int site) {
        if (enter()) {
            try {
                note(holder, FieldSites.offset(site, holder));
            } finally {
                OwnWork.end();
            }
        }
    }

    /** The object is new, and holds what was copied into it. */
    public static void copied(Object object) {
        if (enter()) {
            try {
                for (long offset : ReferenceOffsets.of(object)) {
                    note(object, offset);
                }
            } finally {
                OwnWork.end();
            }
        }
    }

    /** Stores an element. */
    public static void element(Object[] array, int index, Object value) {
        array[index] = value;
        word(array, ReferenceOffsets.ofElement(index));
    }

    /** Copies elements: where they are references, one store each. */
    public static void arraycopy(Object from, int fromIndex, Object to, int toIndex, int length) {
        System.arraycopy(from, fromIndex, to, toIndex, length);
        if (to instanceof Object[]) {
            for (int index = toIndex; index < toIndex + length; index++) {
                word(to, ReferenceOffsets.ofElement(index));
            }
        }
    }

    /** Stands for each kind of {@code Unsafe.putReference}. */
    public static void put(Unsafe unsafe, Object holder, long offset, Object value) {
        unsafe.putReferenceVolatile(holder, offset, value);
        word(holder, offset);
    }

    /** Stands for each kind of {@code Unsafe.compareAndSetReference}. */
    public static boolean compareAndSet(Unsafe unsafe, Object holder, long offset, Object expected, Object value) {
        boolean isSet = unsafe.compareAndSetReference(holder, offset, expected, value);
        if (isSet) {
            word(holder, offset);
        }
        return isSet;
    }

    /** Stands for each kind of {@code Unsafe.compareAndExchangeReference}. */
    public static Object compareAndExchange(Unsafe unsafe, Object holder, long offset, Object expected, Object value) {
        Object found = unsafe.compareAndExchangeReference(holder, offset, expected, value);
        if (found == expected) {
            word(holder, offset);
        }
        return found;
    }

    /** Stands for each kind of {@code Unsafe.getAndSetReference}. */
    public static Object getAndSet(Unsafe unsafe, Object holder, long offset, Object value) {
        Object old = unsafe.getAndSetReference(holder, offset, value);
        word(holder, offset);
        return old;
    }

    // The word of the object was stored.
    private static void word(Object holder, long offset) {
        if (enter()) {
            try {
                note(holder, offset);
            } finally {
                OwnWork.end();
            }
        }
    }

    // Whether what this thread stores is recorded; it then does the recorder's work, until its end.
    private static boolean enter() {
        return isOn && OwnWork.begin();
    }

    private static void note(Object holder, long offset) {
        synchronized (LOCK) {
            Object value = UNSAFE.getReferenceVolatile(holder, offset);
            if (recording != null && !recording.add(Thread.currentThread(), holder, offset, value)) {
                write();
            }
        }
    }

    // The other threads wait with their next store, so that the record is compared with objects
    // that stand still.
    private static void write() {
        if (recording != null) {
            recording.write();
            recording = null;
            isOn = false;
        }
    }
}
