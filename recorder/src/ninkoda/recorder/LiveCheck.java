package ninkoda.recorder;

import jdk.internal.misc.Unsafe;

/** The record beside the objects that it is about, as they are at its end: the recorder's check of itself. */
final class LiveCheck {
    private static final Unsafe UNSAFE = Unsafe.getUnsafe();

    private final ObjectLayout layout;
    private final LastStores lastStores;
    private int agree;
    private int differ;
    private int unseen;

    LiveCheck(ObjectLayout layout, LastStores lastStores) {
        this.layout = layout;
        this.lastStores = lastStores;
        for (Object object : layout.objects()) {
            for (long offset : ReferenceOffsets.of(object)) {
                compare(object, offset);
            }
        }
    }

    /** How many recorded slots hold what was recorded last. */
    int agree() {
        return agree;
    }

    /** How many recorded slots hold something else. */
    int differ() {
        return differ;
    }

    /** How many slots hold a reference, and no store of one was recorded. */
    int unseen() {
        return unseen;
    }

    private void compare(Object object, long offset) {
        Object held = UNSAFE.getReference(object, offset);
        int recorded = lastStores.get(layout.slot(object, offset));
        if (recorded == LastStores.NEVER) {
            unseen += held == null ? 0 : 1;
        } else if (recorded == target(held)) {
            agree++;
        } else {
            differ++;
        }
    }

    // An object that the record has not met is no target of it.
    private int target(Object held) {
        if (held == null) {
            return LastStores.NULL;
        }
        return layout.has(held) ? layout.slot(held, 0) : LastStores.NEVER;
    }
}
