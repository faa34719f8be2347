import java.lang.management.ManagementFactory;
import java.lang.management.ThreadMXBean;
import java.nio.file.Files;
import java.nio.file.Path;
import java.util.ArrayList;
import java.util.List;

/**
 * The language of bench/trees.py as JastAdd2 would generate it: a class for each class of the grammar, with a field and a flag for each
 * cached attribute, and everything flushed at an edit.
 *
 * <p>java FullFlush TREE PATHS BATCHES: asks for both attributes once at each path. It prints the least of these batches, in nanoseconds of the
 * thread's processor time for one question.
 *
 * <p>java FullFlush TREE LEAVES LEVELS BATCH BATCHES: edits a token of each leaf by turns, and asks for the value so many levels above it. It
 * prints the least of these batches, in nanoseconds of the thread's processor time for one edit with its question.
 */
public final class FullFlush {
    /** A node: its parent, its children, and the place among these. */
    abstract static class Node {
        Node parent;
        Node[] children;

        Node(Node... children) {
            this.children = children;
            for (Node child : children) {
                child.parent = this;
            }
        }

        /** Forgets the cached values of this node. */
        abstract void flushCache();

        /** Forgets the cached values of this node and of all below it. */
        void flushTreeCache() {
            flushCache();
            for (Node child : children) {
                child.flushTreeCache();
            }
        }

        /** The inherited depth of a child. */
        int depthOf(Node child) {
            throw new IllegalStateException("no equation");
        }
    }

    static final class Elements extends Node {
        Elements(Node[] elements) {
            super(elements);
        }

        @Override
        void flushCache() {}
    }

    static final class Top extends Node {
        Top(Node main, Node items) {
            super(main, items);
        }

        Expr getMain() {
            return (Expr) children[0];
        }

        @Override
        int depthOf(Node child) {
            return 0;
        }

        @Override
        void flushCache() {}
    }

    abstract static class Expr extends Node {
        private boolean valueVisited;
        private boolean valueComputed;
        private int valueCached;
        private boolean depthVisited;
        private boolean depthComputed;
        private int depthCached;

        Expr(Node... children) {
            super(children);
        }

        abstract int valueCompute();

        final int value() {
            if (valueComputed) {
                return valueCached;
            }
            if (valueVisited) {
                throw new IllegalStateException("circular definition of value");
            }
            valueVisited = true;
            valueCached = valueCompute();
            valueComputed = true;
            valueVisited = false;
            return valueCached;
        }

        final int depth() {
            if (depthComputed) {
                return depthCached;
            }
            if (depthVisited) {
                throw new IllegalStateException("circular definition of depth");
            }
            depthVisited = true;
            depthCached = parent.depthOf(this);
            depthComputed = true;
            depthVisited = false;
            return depthCached;
        }

        int filled() {
            return value() + depth();
        }

        @Override
        final void flushCache() {
            valueComputed = false;
            depthComputed = false;
        }
    }

    static final class Add extends Expr {
        Add(Node left, Node right) {
            super(left, right);
        }

        Expr getLeft() {
            return (Expr) children[0];
        }

        Expr getRight() {
            return (Expr) children[1];
        }

        @Override
        int valueCompute() {
            return getLeft().value() + getRight().value();
        }

        @Override
        int depthOf(Node child) {
            return depth() + 1;
        }

        @Override
        int filled() {
            return getLeft().filled() + getRight().filled() + depth();
        }
    }

    static final class Num extends Expr {
        private int value;
        private final String note;

        Num(int value, String note) {
            this.value = value;
            this.note = note;
        }

        void setValue(int value) {
            this.value = value;
        }

        @Override
        int valueCompute() {
            return value;
        }
    }

    static final class Spare extends Expr {
        Spare(Node... extra) {
            super(extra);
        }

        @Override
        int valueCompute() {
            return children.length > 0 ? ((Expr) children[0]).value() : 0;
        }

        @Override
        int depthOf(Node child) {
            return depth() + 1;
        }
    }

    static final class Item extends Node {
        private final int cost;
        private boolean priceComputed;
        private int priceCached;

        Item(int cost) {
            this.cost = cost;
        }

        int price() {
            if (!priceComputed) {
                priceCached = cost * 2;
                priceComputed = true;
            }
            return priceCached;
        }

        @Override
        void flushCache() {
            priceComputed = false;
        }
    }

    /** Reads a written tree. */
    static final class Reader {
        private final String text;
        private int at;

        Reader(String text) {
            this.text = text;
        }

        private boolean takes(char sign) {
            if (text.charAt(at) != sign) {
                return false;
            }
            at++;
            return true;
        }

        private int number() {
            int begin = at;
            while (Character.isDigit(text.charAt(at))) {
                at++;
            }
            return Integer.parseInt(text.substring(begin, at));
        }

        private String word() {
            int begin = at;
            while (Character.isLetter(text.charAt(at))) {
                at++;
            }
            return text.substring(begin, at);
        }

        private Node[] elements() {
            List<Node> found = new ArrayList<>();
            takes('[');
            while (!takes(']')) {
                found.add(node());
                takes(',');
            }
            return found.toArray(new Node[0]);
        }

        Node node() {
            String name = word();
            takes('(');
            Node made = made(name);
            takes(')');
            return made;
        }

        private Node made(String name) {
            switch (name) {
                case "Top": {
                    Node main = node();
                    takes(',');
                    return new Top(main, new Elements(elements()));
                }
                case "Add": {
                    Node left = node();
                    takes(',');
                    return new Add(left, node());
                }
                case "Num": {
                    int value = number();
                    at += 3;
                    return new Num(value, "");
                }
                case "Spare":
                    return takes('-') ? new Spare() : new Spare(node());
                case "Item":
                    return new Item(number());
                default:
                    throw new IllegalArgumentException(name + " at " + at);
            }
        }
    }

    /** The node at the path from the main sum. */
    static Expr found(Top top, String path) {
        Node node = top.getMain();
        for (String step : path.substring("/Main".length()).split("/")) {
            if (!step.isEmpty()) {
                node = node.children[step.equals("Left") ? 0 : 1];
            }
        }
        return (Expr) node;
    }

    static Expr above(Node node, int levels) {
        Node found = node;
        for (int k = 0; k < levels; k++) {
            found = found.parent;
        }
        return (Expr) found;
    }

    /** Edits the leaf, as its setter and a flush of the whole tree, and asks for the value above. */
    static int edit(Top top, Num leaf, Expr asked, int value) {
        leaf.setValue(value);
        top.flushTreeCache();
        return asked.value();
    }

    /** A batch of edits: the sum of what is answered, so that nothing is left out. */
    static long batch(Top top, Num[] leaves, Expr[] asked, int count) {
        long sum = 0;
        for (int k = 0; k < count; k++) {
            sum += edit(top, leaves[k % leaves.length], asked[k % leaves.length], k);
        }
        return sum;
    }

    /** Finds the node of each path, and asks it for both attributes: the sum of what is answered. */
    static long ask(Top top, List<String> paths) {
        long sum = 0;
        for (String path : paths) {
            Expr node = found(top, path);
            sum += node.value();
            sum += node.depth();
        }
        return sum;
    }

    /** The least time of a question, both attributes asked once at each path, over so many batches. */
    static void askAll(Top top, List<String> paths, int batches) {
        ThreadMXBean threads = ManagementFactory.getThreadMXBean();
        long least = Long.MAX_VALUE;
        long sum = 0;
        for (int k = 0; k < batches; k++) {
            top.flushTreeCache();
            long began = threads.getCurrentThreadCpuTime();
            sum += ask(top, paths);
            least = Math.min(least, threads.getCurrentThreadCpuTime() - began);
        }
        System.err.println("the sum of all answers is " + sum);
        System.out.println((double) least / (2L * paths.size()));
    }

    public static void main(String[] words) throws Exception {
        Top top = (Top) new Reader(Files.readString(Path.of(words[0]))).node();
        List<String> paths = Files.readAllLines(Path.of(words[1]));
        if (words.length == 3) {
            askAll(top, paths, Integer.parseInt(words[2]));
            return;
        }
        int levels = Integer.parseInt(words[2]);
        int count = Integer.parseInt(words[3]);
        Num[] leaves = new Num[paths.size()];
        Expr[] asked = new Expr[paths.size()];
        for (int k = 0; k < leaves.length; k++) {
            leaves[k] = (Num) found(top, paths.get(k));
            asked[k] = above(leaves[k], levels);
        }
        top.getMain().filled();
        ThreadMXBean threads = ManagementFactory.getThreadMXBean();
        long least = Long.MAX_VALUE;
        long sum = 0;
        for (int k = 0; k < Integer.parseInt(words[4]); k++) {
            long began = threads.getCurrentThreadCpuTime();
            sum += batch(top, leaves, asked, count);
            least = Math.min(least, threads.getCurrentThreadCpuTime() - began);
        }
        System.err.println("the sum of all answers is " + sum);
        System.out.println(least / count);
    }
}
