package beside;

import hard.Course;

/** Has 200 channels, each a linked list of frames that are not sent yet. The receiver of quotes.eur is slow. */
final class ChannelService {
    static final int CHANNELS = 200;
    static final int FRAMES_A_DAY = 14_000 * Course.SCALE;

    static final class Frame {
        final byte[] content = new byte[90];
        Frame next;
    }

    static final class Channel {
        final String topic;
        Frame oldest;
        Frame newest;

        Channel(String topic) {
            this.topic = topic;
        }

        void add(Frame frame) {
            if (oldest == null) {
                oldest = frame;
            } else {
                newest.next = frame;
            }
            newest = frame;
        }

        Frame take() {
            Frame frame = oldest;
            oldest = frame.next;
            return frame;
        }
    }

    static final Channel[] ALL = new Channel[CHANNELS];

    static void day(int day) {
        for (int number = 0; number < FRAMES_A_DAY; number++) {
            Channel channel = ALL[number % 2 == 0 ? 42 : number % CHANNELS];
            channel.add(new Frame());
            if (channel != ALL[42] && number > CHANNELS) {
                channel.take();
            }
        }
    }

    public static void main(String[] words) {
        for (int number = 0; number < CHANNELS; number++) {
            ALL[number] = new Channel(number == 42 ? "quotes.eur" : "quotes.share-" + number);
            ALL[number].add(new Frame());
        }
        Catalog.run(words, ChannelService::day);
    }
}
