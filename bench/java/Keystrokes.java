import java.io.BufferedReader;
import java.io.IOException;
import java.io.InputStreamReader;
import java.lang.management.ManagementFactory;
import java.lang.management.ThreadMXBean;
import java.nio.file.Files;
import java.nio.file.Path;
import java.util.ArrayList;
import java.util.List;

/**
 * Edits of a program of the tutorial's language, with all errors asked after each, in one warm process.
 *
 * <p>java Keystrokes TREE reads commands on its standard input, each of which is answered by one line; times are of the thread's
 * processor time, in nanoseconds.
 *
 * <p>cold SECONDS: the least time of a question behind a flush, of as many as fit in so many seconds, and how many errors there are.
 *
 * <p>row SECONDS FILE: the least time of an edit with its flush and its question, over as many passes through the file as fit; and what
 * was answered to each question. The file has lines as attrd reads them: `0 token`, `0 insert`, `0 drop`, and the question.
 *
 * <p>heap: how many bytes are held where everything is cached.
 */
public final class Keystrokes {
    private static final ThreadMXBean THREADS = ManagementFactory.getThreadMXBean();
    private static final int LEAST_PASSES = 3;

    private final Small.Program root;

    private Keystrokes(Small.Program root) {
        this.root = root;
    }

    private static long now() {
        return THREADS.getCurrentThreadCpuTime();
    }

    private static int index(String step) {
        int colon = step.indexOf(':');
        return colon < 0 ? -1 : Integer.parseInt(step.substring(colon + 1));
    }

    private static String part(String step) {
        int colon = step.indexOf(':');
        return colon < 0 ? step : step.substring(0, colon);
    }

    /** The node at a path from the root. */
    private Small.Node found(String path) {
        Small.Node node = root;
        for (String step : path.substring(1).split("/")) {
            if (!step.isEmpty()) {
                node = index(step) < 0 ? node.child(part(step)) : node.list(part(step)).get(index(step));
            }
        }
        return node;
    }

    /** What an edit's line does to the tree; its place is looked up here, and no part of the time. */
    private Runnable edit(String line) {
        String[] words = line.split(" ", 6);
        if (words[1].equals("drop")) {
            int last = words[2].lastIndexOf('/');
            String step = words[2].substring(last + 1);
            List<? extends Small.Node> list = found(words[2].substring(0, Math.max(1, last))).list(part(step));
            return () -> list.remove(index(step));
        }
        Small.Node node = found(words[2]);
        if (words[1].equals("insert")) {
            int index = Integer.parseInt(words[4]);
            return () -> node.insert(words[3], index, SmallReader.read(words[5]));
        }
        String value = words[4].startsWith("\"") ? words[4].substring(1, words[4].length() - 1) : words[4];
        return () -> node.setToken(words[3], value);
    }

    /** Does the lines once: the time of all, and behind it what each question was answered. */
    private List<Long> pass(List<String> lines) {
        List<Long> told = new ArrayList<>(List.of(0L));
        long spent = 0;
        for (String line : lines) {
            if (line.contains(" ask ")) {
                long began = now();
                int errors = root.errors();
                spent += now() - began;
                told.add((long) errors);
            } else {
                Runnable edit = edit(line);
                long began = now();
                edit.run();
                root.flushTreeCache();
                spent += now() - began;
            }
        }
        told.set(0, spent);
        return told;
    }

    private String row(double seconds, Path file) throws IOException {
        List<String> lines = Files.readAllLines(file);
        root.errors();
        List<Long> first = pass(lines);
        List<Long> answers = first.subList(1, first.size());
        long least = first.get(0);
        long end = System.nanoTime() + (long) (seconds * 1e9);
        for (int passes = 1; passes < LEAST_PASSES || System.nanoTime() < end; passes++) {
            List<Long> told = pass(lines);
            if (!told.subList(1, told.size()).equals(answers)) {
                throw new IllegalStateException("a pass through " + file + " has other answers than the first one");
            }
            least = Math.min(least, told.get(0));
        }
        StringBuilder told = new StringBuilder().append(least / answers.size());
        for (long answer : answers) {
            told.append(' ').append(answer);
        }
        return told.toString();
    }

    private String cold(double seconds) {
        long least = Long.MAX_VALUE;
        int errors = 0;
        long end = System.nanoTime() + (long) (seconds * 1e9);
        for (int passes = 0; passes < LEAST_PASSES || System.nanoTime() < end; passes++) {
            root.flushTreeCache();
            long began = now();
            errors = root.errors();
            least = Math.min(least, now() - began);
        }
        return least + " " + errors;
    }

    private String heap() {
        root.errors();
        System.gc();
        Runtime runtime = Runtime.getRuntime();
        return String.valueOf(runtime.totalMemory() - runtime.freeMemory());
    }

    private String answer(String[] words) throws IOException {
        switch (words[0]) {
            case "cold":
                return cold(Double.parseDouble(words[1]));
            case "row":
                return row(Double.parseDouble(words[1]), Path.of(words[2]));
            case "heap":
                return heap();
            default:
                throw new IllegalArgumentException("no command " + words[0]);
        }
    }

    public static void main(String[] words) throws IOException {
        Keystrokes keystrokes = new Keystrokes((Small.Program) SmallReader.read(Files.readString(Path.of(words[0]))));
        BufferedReader commands = new BufferedReader(new InputStreamReader(System.in));
        for (String line = commands.readLine(); line != null; line = commands.readLine()) {
            System.out.println(keystrokes.answer(line.split(" ", 3)));
        }
    }
}
