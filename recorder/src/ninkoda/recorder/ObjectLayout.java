package ninkoda.recorder;

import java.lang.instrument.Instrumentation;
import java.util.ArrayList;
import java.util.IdentityHashMap;
import java.util.List;
import java.util.Map;
import jdk.internal.misc.Unsafe;

/**
 * The heap of the trace: which slots each object of the program has.
 *
 * <p>A slot is one word of the object as the virtual machine lays it out, as wide as a reference; words of the header and of
 * other values are slots too. An object gets its slots when the record first meets it, behind the
 * objects before it. It crosses the end of a region only where it is larger than a region, and it
 * then begins one. No slot is given back.
 */
final class ObjectLayout {
    static final int WORD_BYTES = Unsafe.ARRAY_OBJECT_INDEX_SCALE;

    private final Instrumentation instrumentation;
    private final int regionSlots;
    private final int allSlots;
    // It holds on to the objects, so that none is taken for another.
    private final Map<Object, Integer> firstSlots = new IdentityHashMap<>();
    private final List<Object> objects = new ArrayList<>();
    private int used;

    ObjectLayout(Options options, Instrumentation instrumentation) {
        this.instrumentation = instrumentation;
        regionSlots = options.cards() * options.slots();
        allSlots = options.regions() * regionSlots;
    }

    /** Gives the object its slots, unless it has them; false where the heap has no room for it. */
    boolean place(Object object) {
        if (firstSlots.containsKey(object)) {
            return true;
        }
        int words = (int) (instrumentation.getObjectSize(object) / WORD_BYTES);
        int begun = used % regionSlots;
        boolean isAcross = begun > 0 && words > regionSlots - begun;
        int first = isAcross ? used - begun + regionSlots : used;
        if (words > allSlots - first) {
            return false;
        }
        firstSlots.put(object, first);
        objects.add(object);
        used = first + words;
        return true;
    }

    boolean has(Object object) {
        return firstSlots.containsKey(object);
    }

    /** The slot at an offset, in bytes, of an object that has its slots. */
    int slot(Object object, long offset) {
        return firstSlots.get(object) + (int) (offset / WORD_BYTES);
    }

    /** The objects in the order of their slots. */
    List<Object> objects() {
        return objects;
    }

    /** How many slots were given away, with those that were left free at the end of a region. */
    int used() {
        return used;
    }

    int usedRegions() {
        return (used + regionSlots - 1) / regionSlots;
    }

    int allSlots() {
        return allSlots;
    }
}
