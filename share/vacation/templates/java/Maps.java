// Threads over a lock-free map, and the history of their calls for 'judge keys':
//
//     javac -d . share/vacation/templates/java/Maps.java
//     java Maps > history && ./judge keys < history
//
// The map is the library's ConcurrentHashMap. With --mistake its replace and remove look first and write then, so that
// two threads can both replace one value: the judge shall find that. For another map change `map`, and call
// `Maps.pause()` between its steps: without pauses threads seldom meet within a call. The arguments are the numbers of
// threads, of calls of each thread, and of keys.

import java.util.Random;
import java.util.concurrent.ConcurrentHashMap;
import java.util.concurrent.ConcurrentMap;
import java.util.concurrent.ThreadLocalRandom;

public class Maps extends Thread {
    /** Between two steps of a map: now and then the processor goes to another thread. */
    static void pause() {
        if (ThreadLocalRandom.current().nextInt(16) == 0) Thread.yield();
    }

    /** A map whose conditional writes are not atomic. */
    static class Mistaken extends ConcurrentHashMap<Integer, Integer> {
        @Override public boolean replace(Integer key, Integer old, Integer value) {
            if (!old.equals(get(key))) return false;
            pause();
            put(key, value);
            return true;
        }

        @Override public boolean remove(Object key, Object old) {
            if (!old.equals(get(key))) return false;
            pause();
            return remove(key) != null;
        }
    }

    static ConcurrentMap<Integer, Integer> map = new ConcurrentHashMap<>();
    static int threads = 4, calls = 20_000, keys = 16;
    final int client;
    final StringBuilder lines = new StringBuilder();

    Maps(int client) { this.client = client; }

    static String word(Object value) { return value == null ? "-" : "\"" + value + "\""; }

    /** Runs the calls of a thread. A call begins at a later time than that at which the last one ended. */
    @Override public void run() {
        Random draw = new Random(client);
        for (long i = 0, begin, end = 0; i < calls; i++) {
            Integer key = draw.nextInt(keys), value = draw.nextInt(4), old = draw.nextInt(4);
            int kind = draw.nextInt(7);
            do { begin = System.nanoTime(); } while (begin <= end);
            Object reply = switch (kind) {
                case 0 -> map.put(key, value);
                case 1 -> map.remove(key);
                case 2 -> map.putIfAbsent(key, value);
                case 3, 4 -> map.replace(key, old, value);
                case 5 -> map.remove(key, old);
                default -> map.get(key);
            };
            end = System.nanoTime();
            String asked = switch (kind) {
                case 0 -> "get-and-set " + word(key) + " " + word(value);
                case 1 -> "txn-get " + word(key) + " - = -";
                case 2 -> "txn-get " + word(key) + " - " + word(value) + " =";
                case 3, 4 -> "cas " + word(key) + " " + word(old) + " " + word(value);
                case 5 -> "txn " + word(key) + " " + word(old) + " - =";
                default -> "get " + word(key);
            };
            String shown = reply instanceof Boolean ? reply.toString() : word(reply);
            lines.append(client + " " + begin + " " + end + " " + asked + " -> " + shown + "\n");
        }
    }

    public static void main(String[] words) throws InterruptedException {
        int[] numbers = java.util.Arrays.stream(words).filter(word -> !word.startsWith("--")).mapToInt(Integer::parseInt).toArray();
        if (java.util.Arrays.asList(words).contains("--mistake")) map = new Mistaken();
        if (numbers.length > 0) threads = numbers[0];
        if (numbers.length > 1) calls = numbers[1];
        if (numbers.length > 2) keys = numbers[2];
        Maps[] all = new Maps[threads];
        for (int client = 0; client < threads; client++) (all[client] = new Maps(client)).start();
        for (Maps one : all) one.join();
        for (Maps one : all) System.out.print(one.lines);
    }
}
