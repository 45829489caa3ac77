package ninkoda.recorder;

/** The lines of the trace: the stores, and between them the commands that the options ask for. */
final class Trace {
    private final Options options;
    private final StringBuilder lines = new StringBuilder();
    private int stores;
    private int drains;

    Trace(Options options) {
        this.options = options;
        line("heap " + options.regions() + " " + options.cards() + " " + options.slots());
    }

    int stores() {
        return stores;
    }

    String lines() {
        return lines.toString();
    }

    /** A store into a slot of a target, or of {@link LastStores#NULL}, and what is due after it. */
    void store(int mutator, int slot, int target, int usedRegions) {
        line("store " + mutator + " " + slot + " " + (target == LastStores.NULL ? "null" : target));
        stores++;
        if (isDue(options.work())) {
            line("work");
        }
        if (isDue(options.status())) {
            line("status");
        }
        if (isDue(options.drain())) {
            line("drain " + drains % usedRegions);
            drains++;
        }
    }

    /** Where the trace has drains, it ends with one of each region in use. */
    void end(int usedRegions) {
        for (int region = 0; region < usedRegions && options.drain() > 0; region++) {
            line("drain " + region);
        }
        if (options.status() > 0) {
            line("status");
        }
    }

    private boolean isDue(int every) {
        return every > 0 && stores % every == 0;
    }

    private void line(String text) {
        lines.append(text).append('\n');
    }
}
