package ninkoda.recorder;

import java.io.IOException;
import java.lang.instrument.Instrumentation;
import java.nio.file.Files;
import java.nio.file.Path;
import java.util.ArrayList;
import java.util.List;

/** The record of one program: stores come one at a time, and then it is written. */
final class Recording {
    private final Options options;
    private final ObjectLayout layout;
    private final LastStores lastStores;
    private final Trace trace;
    private final List<Thread> threads = new ArrayList<>();

    Recording(Options options, Instrumentation instrumentation) {
        this.options = options;
        layout = new ObjectLayout(options, instrumentation);
        lastStores = new LastStores(layout.allSlots());
        trace = new Trace(options);
    }

    /** Adds a store into the object at an offset in bytes; false where the record is full and the store is not in it. */
    boolean add(Thread thread, Object holder, long offset, Object value) {
        if (trace.stores() == options.most() || !layout.place(holder) || (value != null && !layout.place(value))) {
            return false;
        }
        int slot = layout.slot(holder, offset);
        int target = value == null ? LastStores.NULL : layout.slot(value, 0);
        lastStores.set(slot, target);
        trace.store(mutator(thread), slot, target, layout.usedRegions());
        return true;
    }

    /** Compares the record with the objects, and writes both. */
    void write() {
        trace.end(layout.usedRegions());
        String remarks = remarks(new LiveCheck(layout, lastStores));
        try {
            Files.writeString(Path.of(options.out()), remarks + trace.lines());
            System.err.print("recorder: " + options.out() + "\n" + remarks);
            if (trace.stores() == 0) {
                System.err.println("recorder: no store was recorded; was " + options.from() + " ever called?");
            }
        } catch (IOException e) {
            System.err.println("recorder: the trace was not written: " + e);
        }
    }

    // Threads are numbered as they come, and share the mutators where they are more than those.
    private int mutator(Thread thread) {
        int number = threads.indexOf(thread);
        if (number < 0) {
            number = threads.size();
            threads.add(thread);
        }
        return number % options.mutators();
    }

    private String remarks(LiveCheck check) {
        return String.format(
                """
                # stores: %d; threads: %d, so --mutators %d
                # objects: %d, in %d words of %d bytes
                # recorded slots: %d agree with the objects at the end,
                # %d differ; references of which no store was seen: %d
                """,
                trace.stores(),
                threads.size(),
                Math.max(1, Math.min(threads.size(), options.mutators())),
                layout.objects().size(),
                layout.used(),
                ObjectLayout.WORD_BYTES,
                check.agree(),
                check.differ(),
                check.unseen());
    }
}
