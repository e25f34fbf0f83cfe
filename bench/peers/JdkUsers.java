import java.util.ArrayList;
import java.util.List;
import java.util.concurrent.ConcurrentHashMap;
import java.util.concurrent.atomic.LongAdder;
import java.util.function.IntConsumer;

/**
 * Measures the JDK's ConcurrentHashMap on what crates/user_bench measures: appends at one key, a rate limiter, an inverted index.
 *
 * <p>usage: JdkUsers append|move|limit|index CLIENTS SIZE RUNS
 *
 * <p>A value is changed where it lies by compute, which locks its bucket.
 */
public final class JdkUsers {
    private static final int USERS = 1_000;
    private static final int MOST = 1_000;
    private static final int ROWS = 17;

    /** How long a run took, in nanoseconds, and what it came to. */
    private record Measured(long taken, long result) {}

    /** How many requests of a user were let through in a second. */
    private static final class Used {
        private long second = 1;
        private long requests;

        boolean admit(long now) {
            if (second != now) {
                second = now;
                requests = 0;
            }
            boolean passes = requests < MOST;
            requests += passes ? 1 : 0;
            return passes;
        }
    }

    /** What splitmix64 draws in this place. */
    private static long drawnAt(long place) {
        long state = place * 0x9e3779b97f4a7c15L;
        long z = (state ^ (state >>> 30)) * 0xbf58476d1ce4e5b9L;
        z = (z ^ (z >>> 27)) * 0x94d049bb133111ebL;
        return z ^ (z >>> 31);
    }

    private static Measured append(boolean inPlace, int count) {
        ConcurrentHashMap<Long, List<Long>> map = new ConcurrentHashMap<>();
        map.put(1L, new ArrayList<>());
        long start = System.nanoTime();
        for (long i = 0; i < count; i++) {
            Long number = i;
            if (inPlace) {
                map.computeIfPresent(1L, (key, list) -> {
                    list.add(number);
                    return list;
                });
            } else {
                List<Long> list = map.remove(1L);
                list.add(number);
                map.put(1L, list);
            }
        }
        return new Measured(System.nanoTime() - start, map.get(1L).size());
    }

    /** Lets so many threads do this with their numbers, and waits for all. */
    private static void together(int clients, IntConsumer work) throws InterruptedException {
        List<Thread> threads = new ArrayList<>();
        for (int client = 0; client < clients; client++) {
            int number = client;
            Thread thread = new Thread(() -> work.accept(number));
            threads.add(thread);
            thread.start();
        }
        for (Thread thread : threads) {
            thread.join();
        }
    }

    private static long ask(ConcurrentHashMap<Long, Used> map, int client, int requests) {
        boolean[] passes = new boolean[1];
        long passed = 0;
        for (int request = 0; request < requests; request++) {
            long user = Long.remainderUnsigned(drawnAt((long) client * requests + request), USERS);
            map.compute(user, (key, found) -> {
                Used used = found == null ? new Used() : found;
                passes[0] = used.admit(1);
                return used;
            });
            passed += passes[0] ? 1 : 0;
        }
        return passed;
    }

    private static Measured limit(int clients, int requests) throws InterruptedException {
        ConcurrentHashMap<Long, Used> map = new ConcurrentHashMap<>();
        LongAdder passed = new LongAdder();
        long start = System.nanoTime();
        together(clients, client -> passed.add(ask(map, client, requests)));
        return new Measured(System.nanoTime() - start, passed.sum());
    }

    /** The number of the word at a place. */
    private static int wordAt(long place) {
        long drawn = drawnAt(place);
        long row = 1L << Long.remainderUnsigned(drawn, ROWS);
        return (int) (row + (drawn >>> 32 & row - 1) - 1);
    }

    private static void read(ConcurrentHashMap<String, List<Integer>> map, String[] words, int client, int places) {
        for (int place = client * places; place < (client + 1) * places; place++) {
            Integer where = place;
            map.compute(words[wordAt(place)], (word, found) -> {
                List<Integer> list = found == null ? new ArrayList<>(1) : found;
                list.add(where);
                return list;
            });
        }
    }

    private static Measured index(int clients, int places) throws InterruptedException {
        String[] words = new String[(1 << ROWS) - 1];
        for (int number = 0; number < words.length; number++) {
            words[number] = "w" + number;
        }
        ConcurrentHashMap<String, List<Integer>> map = new ConcurrentHashMap<>();
        long start = System.nanoTime();
        together(clients, client -> read(map, words, client, places / clients));
        return new Measured(System.nanoTime() - start, map.mappingCount());
    }

    private static Measured run(String mode, int clients, int size) throws InterruptedException {
        return switch (mode) {
            case "append" -> append(true, size);
            case "move" -> append(false, size);
            case "limit" -> limit(clients, size);
            case "index" -> index(clients, size);
            default -> throw new IllegalArgumentException(mode);
        };
    }

    public static void main(String[] words) throws InterruptedException {
        if (words.length != 4) {
            System.err.println("usage: JdkUsers append|move|limit|index CLIENTS SIZE RUNS");
            System.exit(2);
        }
        String mode = words[0];
        int clients = Integer.parseInt(words[1]);
        long best = Long.MAX_VALUE;
        long result = 0;
        for (int run = Integer.parseInt(words[3]); run > 0; run--) {
            Measured measured = run(mode, clients, Integer.parseInt(words[2]));
            best = Math.min(best, measured.taken / 1_000);
            result = measured.result;
        }
        System.out.println("JDK " + mode + " " + clients + " " + best + " " + result);
    }
}
