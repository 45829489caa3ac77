package ninkoda.recorder;

/**
 * The threads that do the recorder's work at the moment, and not the program's: what they store is
 * not recorded.
 *
 * <p>It calls nothing that is instrumented itself.
 */
final class OwnWork {
    private static Thread[] threads = new Thread[16];
    private static int count;

    private OwnWork() {}

    /** From now on this thread does the recorder's work; false where it does already. */
    static synchronized boolean begin() {
        Thread thread = Thread.currentThread();
        if (place(thread) < count) {
            return false;
        }
        if (count == threads.length) {
            grow();
        }
        threads[count] = thread;
        count++;
        return true;
    }

    /** This thread goes back to the program's work. */
    static synchronized void end() {
        int place = place(Thread.currentThread());
        count--;
        threads[place] = threads[count];
        threads[count] = null;
    }

    // Where the thread stands, or the count where it doesn't.
    private static int place(Thread thread) {
        int place = 0;
        while (place < count && threads[place] != thread) {
            place++;
        }
        return place;
    }

    private static void grow() {
        Thread[] more = new Thread[2 * threads.length];
        for (int i = 0; i < count; i++) {
            more[i] = threads[i];
        }
        threads = more;
    }
}
