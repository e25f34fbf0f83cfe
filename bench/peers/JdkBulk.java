import java.util.concurrent.ConcurrentHashMap;
import java.util.concurrent.ForkJoinPool;

/**
 * Measures the bulk operations of the JDK's ConcurrentHashMap: how many microseconds the best of some runs of each took.
 *
 * <p>usage: JdkBulk KEYS WORKERS WRITERS RUNS
 */
public final class JdkBulk {
    private static volatile boolean stop;
    private static volatile Object seen;

    /** What the generator splitmix64 draws in this place: keys in no order, each once. */
    private static long keyOf(long place) {
        long z = place * 0x9e3779b97f4a7c15L;
        z = (z ^ (z >>> 30)) * 0xbf58476d1ce4e5b9L;
        z = (z ^ (z >>> 27)) * 0x94d049bb133111ebL;
        return z ^ (z >>> 31);
    }

    private static void write(ConcurrentHashMap<Long, Long> map, long first) {
        for (long round = 0; !stop; round++) {
            long key = keyOf(first + round % 1_000);
            map.put(key, 0L);
            map.remove(key);
        }
    }

    private static void time(long[] best, int place, Runnable operation) {
        long start = System.nanoTime();
        operation.run();
        best[place] = Math.min(best[place], (System.nanoTime() - start) / 1_000);
    }

    private static long[] measure(ConcurrentHashMap<Long, Long> map, long threshold, int runs) {
        long[] best = {Long.MAX_VALUE, Long.MAX_VALUE, Long.MAX_VALUE, Long.MAX_VALUE};
        for (int run = 0; run < runs; run++) {
            time(best, 0, () -> seen = map.reduceValuesToLong(threshold, Long::longValue, 0, Long::sum));
            time(best, 1, () -> seen = map.searchValues(threshold, value -> value < 0 ? value : null));
            time(best, 2, () -> seen = map.searchValues(threshold, value -> value > 0 ? value : null));
            time(best, 3, () -> map.forEach(threshold, (key, value) -> { }));
        }
        return best;
    }

    public static void main(String[] words) throws Exception {
        long keys = Long.parseLong(words[0]);
        int workers = Integer.parseInt(words[1]);
        int writers = Integer.parseInt(words[2]);
        int runs = Integer.parseInt(words[3]);
        ConcurrentHashMap<Long, Long> map = new ConcurrentHashMap<>();
        for (long place = 1; place <= keys; place++) {
            map.put(keyOf(place), place);
        }
        Thread[] threads = new Thread[writers];
        for (int number = 0; number < writers; number++) {
            long first = keys + 1 + 1_000L * number;
            threads[number] = new Thread(() -> write(map, first));
            threads[number].start();
        }
        // A bulk operation forks into the pool of the thread that calls it, so it is called from a pool of that size.
        ForkJoinPool pool = new ForkJoinPool(workers);
        long threshold = workers == 1 ? Long.MAX_VALUE : 1;
        long[] best = pool.submit(() -> measure(map, threshold, runs)).get();
        stop = true;
        for (Thread thread : threads) {
            thread.join();
        }
        System.out.printf("reduce %d none %d found %d for_each %d%n", best[0], best[1], best[2], best[3]);
    }
}
