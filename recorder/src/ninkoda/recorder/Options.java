package ninkoda.recorder;

/**
 * What the user of the recorder chooses, each by {@code NAME=VALUE}.
 *
 * @param out the file of the trace
 * @param from the method whose first call begins the record, as {@code package.Class.method}; empty for the program's begin
 * @param most how many stores are recorded at most
 * @param regions the regions of the heap
 * @param cards the cards of a region
 * @param slots the slots of a card
 * @param mutators how many mutators the threads are shared out to
 * @param drain after how many stores a region is drained, 0 for never
 * @param work after how many stores there is a round of refinement, 0 for never
 * @param status after how many stores the trace asks for the status, 0 for never
 */
record Options(
        String out,
        String from,
        int most,
        int regions,
        int cards,
        int slots,
        int mutators,
        int drain,
        int work,
        int status) {

    private static final int MOST_SLOTS = 1 << 20;
    private static final int MOST_STORES = 1 << 24;

    /** Reads options parted by commas; an option that is not there has its default. */
    static Options read(String words) {
        String out = "recorded.trace";
        String from = "";
        int most = 12_000, regions = 128, cards = 32, slots = 64, mutators = 8, drain = 0, work = 0, status = 0;
        for (String word : words.isEmpty() ? new String[0] : words.split(",")) {
            int equals = word.indexOf('=');
            String name = equals < 0 ? word : word.substring(0, equals);
            String value = equals < 0 ? "" : word.substring(equals + 1);
            switch (name) {
                case "out" -> out = value;
                case "from" -> from = value;
                case "most" -> most = number(name, value, 1, MOST_STORES);
                case "regions" -> regions = number(name, value, 1, 256);
                case "cards" -> cards = number(name, value, 1, 256);
                case "slots" -> slots = number(name, value, 1, 64);
                case "mutators" -> mutators = number(name, value, 1, 8);
                case "drain" -> drain = number(name, value, 0, MOST_STORES);
                case "work" -> work = number(name, value, 0, MOST_STORES);
                case "status" -> status = number(name, value, 0, MOST_STORES);
                default -> throw new IllegalArgumentException("no such option: " + name);
            }
        }
        if (out.isEmpty()) {
            throw new IllegalArgumentException("out wants the name of a file");
        }
        if (regions * cards * slots > MOST_SLOTS) {
            throw new IllegalArgumentException("a heap has at most " + MOST_SLOTS + " slots");
        }
        return new Options(out, from, most, regions, cards, slots, mutators, drain, work, status);
    }

    private static int number(String name, String value, int least, int most) {
        try {
            int number = Integer.parseInt(value);
            if (least <= number && number <= most) {
                return number;
            }
        } catch (NumberFormatException e) {
            // the same answer as for a number outside the limits
        }
        throw new IllegalArgumentException(name + " is a number from " + least + " to " + most + ", not '" + value + "'");
    }
}
