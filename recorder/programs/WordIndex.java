import java.io.IOException;
import java.nio.file.Files;
import java.nio.file.Path;
import java.util.Comparator;
import java.util.List;
import java.util.Map;
import java.util.Queue;
import java.util.concurrent.ConcurrentHashMap;
import java.util.concurrent.ConcurrentLinkedQueue;
import java.util.concurrent.ExecutorService;
import java.util.concurrent.Executors;
import java.util.concurrent.TimeUnit;

/** Says which words stand most often in some files: four threads read the files, and one index has what they find. */
public final class WordIndex {
    record Place(Path file, int line) {}

    private final Map<String, Queue<Place>> places = new ConcurrentHashMap<>();

    public static void main(String[] files) throws InterruptedException {
        WordIndex index = new WordIndex();
        ExecutorService readers = Executors.newFixedThreadPool(4);
        for (String file : files) {
            readers.execute(() -> index.read(Path.of(file)));
        }
        readers.shutdown();
        readers.awaitTermination(1, TimeUnit.HOURS);
        index.print(10);
    }

    private void read(Path file) {
        try {
            List<String> lines = Files.readAllLines(file);
            for (int line = 0; line < lines.size(); line++) {
                for (String word : lines.get(line).split("\\W+")) {
                    places.computeIfAbsent(word, unseen -> new ConcurrentLinkedQueue<>()).add(new Place(file, line));
                }
            }
        } catch (IOException e) {
            System.err.println(file + ": " + e);
        }
    }

    private void print(int most) {
        places.entrySet().stream()
                .sorted(Comparator.comparing(entry -> -entry.getValue().size()))
                .limit(most)
                .forEach(entry -> System.out.println(entry.getValue().size() + " " + entry.getKey()));
    }
}
