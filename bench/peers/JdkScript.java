import java.io.BufferedOutputStream;
import java.io.IOException;
import java.io.OutputStream;
import java.nio.charset.StandardCharsets;
import java.nio.file.Files;
import java.nio.file.Path;
import java.util.ArrayList;
import java.util.List;
import java.util.concurrent.ConcurrentHashMap;

/** Runs a script as mapcli does, as far as bench/script writes such scripts, on the JDK's ConcurrentHashMap. */
final class JdkScript {
    record Call(String word, String key, long value) {}

    private static Long made(ConcurrentHashMap<String, Long> map, Call call) {
        return switch (call.word) {
            case "get" -> map.get(call.key);
            case "put" -> map.put(call.key, call.value);
            case "remove" -> map.remove(call.key);
            case "merge" -> map.merge(call.key, call.value, Long::sum);
            default -> throw new IllegalArgumentException(call.word);
        };
    }

    private static StringBuilder played(ConcurrentHashMap<String, Long> map, int client, List<Call> calls) {
        StringBuilder told = new StringBuilder("client ").append(client).append('\n');
        for (Call call : calls) {
            Long reply = made(map, call);
            if (reply == null) {
                told.append("none\n");
            } else {
                told.append("some ").append(reply.longValue()).append('\n');
            }
        }
        return told;
    }

    public static void main(String[] words) throws IOException, InterruptedException {
        List<List<Call>> blocks = new ArrayList<>();
        List<String> queries = null;
        for (String line : Files.readAllLines(Path.of(words[0]), StandardCharsets.US_ASCII)) {
            if (queries != null) {
                queries.add(line);
            } else if (line.equals("client")) {
                blocks.add(new ArrayList<>());
            } else if (line.equals("query")) {
                queries = new ArrayList<>();
            } else {
                String[] parts = line.split(" ");
                long value = parts.length > 2 ? Long.parseLong(parts[2]) : 0;
                blocks.get(blocks.size() - 1).add(new Call(parts[0], parts[1], value));
            }
        }
        ConcurrentHashMap<String, Long> map = new ConcurrentHashMap<>();
        StringBuilder[] told = new StringBuilder[blocks.size()];
        Thread[] threads = new Thread[blocks.size()];
        for (int i = 0; i < threads.length; i++) {
            int client = i;
            threads[i] = new Thread(() -> told[client] = played(map, client, blocks.get(client)));
            threads[i].start();
        }
        for (Thread thread : threads) {
            thread.join();
        }
        try (OutputStream out = new BufferedOutputStream(System.out)) {
            for (StringBuilder one : told) {
                out.write(one.toString().getBytes(StandardCharsets.US_ASCII));
            }
            for (String query : queries == null ? List.<String>of() : queries) {
                long answer = query.equals("count") ? map.size() : map.reduceValuesToLong(1, Long::longValue, 0, Long::sum);
                out.write((answer + "\n").getBytes(StandardCharsets.US_ASCII));
            }
        }
    }
}
