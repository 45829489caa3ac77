package ninkoda.recorder;

import java.util.Arrays;

/** What was stored last into each slot of the trace's heap. */
final class LastStores {
    static final int NULL = -1;
    static final int NEVER = -2;

    private final int[] targets;

    LastStores(int slots) {
        targets = new int[slots];
        Arrays.fill(targets, NEVER);
    }

    void set(int slot, int target) {
        targets[slot] = target;
    }

    /** A slot, {@link #NULL}, or {@link #NEVER} where nothing was stored. */
    int get(int slot) {
        return targets[slot];
    }
}
