import java.util.HexFormat;
import java.util.Locale;
import java.util.concurrent.ConcurrentHashMap;

/**
 * Tells how many bytes an entry of the JDK's ConcurrentHashMap takes: by how much more of the heap is in use after a
 * collection once the map is filled.
 *
 * <p>usage: JdkMemory KEYS numbers|bytes
 *
 * <p>Keys and values are Longs, or texts of 16 characters and arrays of 16 bytes; the map alone refers to them.
 */
public final class JdkMemory {
    private static final HexFormat DIGITS = HexFormat.of();

    private static long used() {
        Runtime its = Runtime.getRuntime();
        for (int i = 0; i < 3; i++) {
            System.gc();
        }
        return its.totalMemory() - its.freeMemory();
    }

    private static void fill(ConcurrentHashMap<Object, Object> map, int keys, boolean areNumbers) {
        for (int i = 0; i < keys; i++) {
            if (areNumbers) {
                map.put((long) i, (long) i);
            } else {
                map.put(DIGITS.toHexDigits((long) i), new byte[16]);
            }
        }
    }

    public static void main(String[] words) {
        int keys = Integer.parseInt(words[0]);
        boolean areNumbers = words[1].equals("numbers");
        fill(new ConcurrentHashMap<>(), 1000, areNumbers);
        long before = used();
        ConcurrentHashMap<Object, Object> map = new ConcurrentHashMap<>();
        fill(map, keys, areNumbers);
        double each = (double) (used() - before) / map.size();
        System.out.printf(Locale.ROOT, "jdk memory 1 %.3f%n", each);
    }
}
