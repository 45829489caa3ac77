package ninkoda.recorder;

import java.io.IOException;
import java.lang.instrument.Instrumentation;
import java.lang.instrument.UnmodifiableClassException;
import java.nio.file.Files;
import java.nio.file.Path;

/** Where the recorder begins, before the program's {@code main}. */
public final class Agent {
    private Agent() {}

    /** Instruments the classes that are loaded and those to come. What can't work ends the program with status 2. */
    public static void premain(String words, Instrumentation instrumentation) throws UnmodifiableClassException {
        try {
            Options options = Options.read(words == null ? "" : words);
            Files.writeString(Path.of(options.out()), "");
            Instrumenter instrumenter = new Instrumenter(options.from());
            instrumenter.tryOut();
            Stores.prepare(new Recording(options, instrumentation));
            instrument(instrumenter, instrumentation);
            Runtime.getRuntime().addShutdownHook(new Thread(Stores::end, "recorder"));
            if (options.from().isEmpty()) {
                Stores.begin();
            }
        } catch (IllegalArgumentException e) {
            refuse(e.getMessage());
        } catch (IOException e) {
            refuse("no trace can be written: " + e);
        }
    }

    private static void refuse(String reason) {
        System.err.println("recorder: " + reason);
        Runtime.getRuntime().halt(2);
    }

    private static void instrument(Instrumenter instrumenter, Instrumentation instrumentation)
            throws UnmodifiableClassException {
        instrumentation.addTransformer(instrumenter, true);
        for (Class<?> loaded : instrumentation.getAllLoadedClasses()) {
            if (instrumentation.isModifiableClass(loaded) && Instrumenter.isRecorded(loaded.getName().replace('.', '/'))) {
                instrumentation.retransformClasses(loaded);
            }
        }
    }
}
