import java.io.IOException;

/**
 * Has one long list in its heap, which ends in a tree: a second worker finds no work before the list is done.
 * Prints "ready" and waits until its standard input ends.
 *
 * <p>Usage: {@code java LongList LINKS NODES}: the list has LINKS objects, the tree NODES.
 */
public final class LongList {
    static final class Link {
        final Object next;

        Link(Object next) {
            this.next = next;
        }
    }

    static final class Tree {
        final Tree left;
        final Tree right;

        Tree(Tree left, Tree right) {
            this.left = left;
            this.right = right;
        }
    }

    static Object first;

    /** A tree of {@code nodes} nodes with as few levels as possible. */
    static Tree treeOf(int nodes) {
        return nodes == 0 ? null : new Tree(treeOf((nodes - 1) / 2), treeOf(nodes / 2));
    }

    public static void main(String[] words) throws IOException {
        int links = Integer.parseInt(words[0]);
        first = treeOf(Integer.parseInt(words[1]));
        for (int link = 0; link < links; link++) {
            first = new Link(first);
        }
        System.out.println("ready");
        while (System.in.read() >= 0) {
            first.hashCode();
        }
    }
}
