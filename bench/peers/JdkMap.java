import java.util.ArrayList;
import java.util.Arrays;
import java.util.Locale;
import java.util.Map;
import java.util.concurrent.ConcurrentHashMap;

/**
 * Measures the JDK's ConcurrentHashMap on the workload that docs/SPEED.md describes.
 *
 * <p>usage: JdkMap plain|recorded mix|get|merge|view|update|walk|fill|stall THREADS CALLS KEYS uniform|zipf
 *
 * <p>A view is a get, an update a compute with a lambda, and a walk goes by the iterator of the entries.
 *
 * <p>"plain" is the map as it comes. Under "recorded" each call, a get too, is kept with who made it, what it found and
 * what it left, in a list of its key that is written under the lock of the key's bin. A list holds at most 1,024 records: then
 * the oldest 512 go. The JDK compiles what runs often, so the run is made three times, and the last is told.
 */
public final class JdkMap {
    /** How often the run is made. */
    private static final int RUNS = 3;

    private enum Mode { MIX, GET, MERGE, VIEW, UPDATE, WALK, FILL, STALL }

    private enum Call { GET, PUT, REMOVE, MERGE, UPDATE }

    /** The generator splitmix64. */
    private static final class Random {
        private long state;

        Random(long seed) {
            state = seed;
        }

        long draw() {
            state += 0x9e3779b97f4a7c15L;
            long z = state;
            z = (z ^ (z >>> 30)) * 0xbf58476d1ce4e5b9L;
            z = (z ^ (z >>> 27)) * 0x94d049bb133111ebL;
            return z ^ (z >>> 31);
        }
    }

    /**
     * How the numbers of keys are chosen: each alike, or by Zipf's law with the exponent 0.99, by a table of steps of which each is
     * as likely as the others.
     */
    private static final class Choice {
        private static final int STEPS = 4096;

        private final long keys;
        private final long[] starts;

        Choice(boolean isZipf, long keys) {
            this.keys = keys;
            starts = isZipf ? steps(keys) : null;
        }

        /** 2^40 over the rank to the 0.99, nearly. */
        private static long weight(long rank) {
            int exponent = 63 - Long.numberOfLeadingZeros(rank);
            long logarithm = exponent * 65_536L + (rank << 16 >>> exponent) - 65_536;
            long power = logarithm * 454 >>> 16;
            return Long.divideUnsigned(power + 65_536 + (power * power >>> 17) << 24, rank);
        }

        private static long[] steps(long keys) {
            long[] starts = new long[STEPS + 1];
            long total = 0;
            for (long rank = 1; rank <= keys; rank++) {
                total += weight(rank);
            }
            long before = 0;
            int made = 0;
            for (long rank = 1; rank <= keys; rank++) {
                before += weight(rank);
                while (made < STEPS && Long.compareUnsigned((before >>> 12) * 4096, (total >>> 12) * made) >= 0) {
                    starts[made++] = rank - 1;
                }
            }
            while (made <= STEPS) {
                starts[made++] = keys - 1;
            }
            return starts;
        }

        int number(long drawn) {
            if (starts == null) {
                return (int) ((drawn >>> 16) % keys);
            }
            int step = (int) ((drawn >>> 16) % STEPS);
            long rank = starts[step] + (drawn >>> 28) % (starts[step + 1] - starts[step] + 1);
            return (int) (rank * 7919 % keys);
        }
    }

    /** The way in which one thread calls the map. */
    private interface Client {
        /** Makes the call, and returns the value that a get found, else 0. */
        long make(Call call, String key, long value);

        /** Goes over the map, and returns the sum of the values. */
        long walk();
    }

    /** A map that gives each thread its way in. */
    private interface Shared {
        Client client(int number);
    }

    private static final class PlainMap implements Shared {
        private final ConcurrentHashMap<String, Long> entries = new ConcurrentHashMap<>();

        @Override
        public Client client(int number) {
            return new Client() {
                @Override
                public long make(Call call, String key, long value) {
                    switch (call) {
                        case GET -> {
                            Long found = entries.get(key);
                            return found == null ? 0 : found;
                        }
                        case PUT -> entries.put(key, value);
                        case REMOVE -> entries.remove(key);
                        case MERGE -> entries.merge(key, value, Long::sum);
                        case UPDATE -> entries.compute(key, (same, old) -> old == null ? value : old + value);
                    }
                    return 0;
                }

                @Override
                public long walk() {
                    long sum = 0;
                    for (Map.Entry<String, Long> entry : entries.entrySet()) {
                        sum += entry.getValue();
                    }
                    return sum;
                }
            };
        }
    }

    /** One call, as a history keeps it. */
    private record Made(int client, long ordinal, Call call, String key, long given, Long before, Long after) {}

    /** A key's value, null where it has none, and the calls that were made of it. */
    private static final class Cell {
        private static final int MOST = 1024;

        private Long value;
        private final ArrayList<Made> history = new ArrayList<>();

        void keep(Made made) {
            history.add(made);
            if (history.size() > MOST) {
                history.subList(0, MOST / 2).clear();
            }
        }
    }

    private static final class RecordedMap implements Shared {
        private final ConcurrentHashMap<String, Cell> cells = new ConcurrentHashMap<>();

        @Override
        public Client client(int number) {
            return new Client() {
                private long made;

                @Override
                public long make(Call call, String key, long value) {
                    long ordinal = made++;
                    long[] found = {0};
                    // compute holds the lock of the key's bin while it calls the function.
                    cells.compute(key, (same, old) -> {
                        Cell cell = old == null ? new Cell() : old;
                        Long before = cell.value;
                        Long after = switch (call) {
                            case GET -> before;
                            case PUT -> (Long) value;
                            case REMOVE -> null;
                            case MERGE, UPDATE -> before == null ? (Long) value : (Long) (before + value);
                        };
                        cell.value = after;
                        cell.keep(new Made(number, ordinal, call, key, value, before, after));
                        found[0] = call == Call.GET && before != null ? before : 0;
                        return cell;
                    });
                    return found[0];
                }

                @Override
                public long walk() {
                    long sum = 0;
                    for (Cell cell : cells.values()) {
                        sum += cell.value == null ? 0 : cell.value;
                    }
                    return sum;
                }
            };
        }
    }

    /** Where results go, so that no get can be left out by the compiler. */
    private static volatile long kept;

    private static void walk(Client client, long calls) {
        long sum = 0;
        for (long i = 0; i < calls; i++) {
            sum += client.walk();
        }
        kept = sum;
    }

    private static void work(Client client, Mode mode, long seed, long calls, String[] names, Choice choice) {
        Random random = new Random(seed);
        long sum = 0;
        for (long i = 0; i < calls; i++) {
            long drawn = random.draw();
            String name = names[choice.number(drawn)];
            long part = Long.remainderUnsigned(drawn, 100);
            if (mode == Mode.MERGE) {
                client.make(Call.MERGE, name, 1);
            } else if (mode == Mode.UPDATE) {
                client.make(Call.UPDATE, name, 1);
            } else if (mode == Mode.GET || mode == Mode.VIEW || part < 80) {
                sum += client.make(Call.GET, name, 0);
            } else if (part < 95) {
                client.make(Call.PUT, name, i);
            } else {
                client.make(Call.REMOVE, name, 0);
            }
        }
        kept = sum;
    }

    /** Puts the keys from a number on that lie so far apart. Returns the longest put in milliseconds, where puts are timed. */
    private static double fill(Client client, Mode mode, int first, int step, String[] names) {
        long longest = 0;
        for (int i = first; i < names.length; i += step) {
            if (mode == Mode.FILL) {
                client.make(Call.PUT, names[i], i);
                continue;
            }
            long start = System.nanoTime();
            client.make(Call.PUT, names[i], i);
            longest = Math.max(longest, System.nanoTime() - start);
        }
        return longest / 1e6;
    }

    /** Fills a new map. Returns how many million puts a second the threads made together, or the longest put in milliseconds. */
    private static double runFill(Shared map, Mode mode, int threads, String[] names) throws InterruptedException {
        Thread[] started = new Thread[threads];
        double[] longest = new double[threads];
        long start = System.nanoTime();
        for (int i = 0; i < threads; i++) {
            int number = i;
            started[i] = new Thread(() -> longest[number] = fill(map.client(number), mode, number, threads, names));
            started[i].start();
        }
        for (Thread thread : started) {
            thread.join();
        }
        double seconds = (System.nanoTime() - start) / 1e9;
        return mode == Mode.FILL ? names.length / seconds / 1e6 : Arrays.stream(longest).max().orElse(0);
    }

    /** Returns how many million calls a second the threads made together of a new map. */
    private static double run(boolean isRecorded, Mode mode, int threads, long calls, String[] names, boolean isZipf)
            throws InterruptedException {
        Shared map = isRecorded ? new RecordedMap() : new PlainMap();
        if (mode == Mode.FILL || mode == Mode.STALL) {
            return runFill(map, mode, threads, names);
        }
        Choice choice = new Choice(isZipf, names.length);
        Client filler = map.client(threads);
        for (int i = 0; i < names.length; i += 2) {
            filler.make(Call.PUT, names[i], i);
        }
        Thread[] started = new Thread[threads];
        long start = System.nanoTime();
        for (int i = 0; i < threads; i++) {
            Client client = map.client(i);
            long seed = i + 1;
            started[i] = new Thread(() -> {
                if (mode == Mode.WALK) {
                    walk(client, calls);
                } else {
                    work(client, mode, seed, calls, names, choice);
                }
            });
            started[i].start();
        }
        for (Thread thread : started) {
            thread.join();
        }
        double seconds = (System.nanoTime() - start) / 1e9;
        // (Of walks the entries that they show.)
        long each = mode == Mode.WALK ? (names.length + 1) / 2 : 1;
        return threads * calls * each / seconds / 1e6;
    }

    public static void main(String[] words) throws InterruptedException {
        boolean isRecorded = words[0].equals("recorded");
        Mode mode = Mode.valueOf(words[1].toUpperCase(Locale.ROOT));
        int threads = Integer.parseInt(words[2]);
        long calls = Long.parseLong(words[3]);
        String[] names = new String[Integer.parseInt(words[4])];
        for (int i = 0; i < names.length; i++) {
            names[i] = "k" + i;
        }
        double rate = 0;
        for (int i = 0; i < RUNS; i++) {
            rate = run(isRecorded, mode, threads, calls, names, words[5].equals("zipf"));
        }
        System.out.printf(Locale.ROOT, "%s %s %d %.3f%n", isRecorded ? "jdk_recorded" : "jdk", words[1], threads, rate);
    }
}
