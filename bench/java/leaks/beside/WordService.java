package beside;

import hard.Course;

/** Interns what users search for in a trie of its own, which has no end. */
final class WordService {
    static final int WORDS_A_DAY = 5_000 * Course.SCALE;

    static final class Node {
        private final char letter;
        private Node child;
        private Node sibling;
        private String word;

        Node(char letter) {
            this.letter = letter;
        }

        Node next(char letter) {
            for (Node each = child; each != null; each = each.sibling) {
                if (each.letter == letter) {
                    return each;
                }
            }
            Node made = new Node(letter);
            made.sibling = child;
            child = made;
            return made;
        }
    }

    static final class Words {
        private final Node root = new Node(' ');
        private long searches;

        String interned(String word) {
            searches++;
            Node node = root;
            for (int at = 0; at < word.length(); at++) {
                node = node.next(word.charAt(at));
            }
            if (node.word == null) {
                node.word = word;
            }
            return node.word;
        }
    }

    private final Words words = new Words();

    private void day(int day) {
        for (int number = 0; number < WORDS_A_DAY; number++) {
            words.interned(Integer.toString((day * WORDS_A_DAY + number) * 7_919, 36) + " shoes");
        }
    }

    public static void main(String[] words) {
        Catalog.run(words, new WordService()::day);
    }
}
