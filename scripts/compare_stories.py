"""Holds the program against the model on drawn stories of stores.

Usage: compare_stories.py PROGRAM FOLDER [SEED [STORIES]]. Equal seeds give equal stories."""
import random
import sys

import both
import stories


def tell(c, case, story, commands):
    """Runs a story's first commands by both."""
    c.bell = story.version == 2
    for n in range(commands):
        words = story.begin() if n == 0 else story.next()
        answer = c.both("%s, command %d" % (case, n), words, story.files)
        story.after(words, answer)
        if n == 0 and answer[1]:
            break


def main():
    seed = int(sys.argv[3]) if len(sys.argv) > 3 else 1
    count = int(sys.argv[4]) if len(sys.argv) > 4 else 60
    c = both.Both(sys.argv[1], sys.argv[2])
    for n in range(count):
        r = random.Random("%d %d" % (seed, n))
        tell(c, "seed %d, story %d" % (seed, n), stories.Story(r), r.choice([4, 10, 20]))
    return c.end("stories: ")


if __name__ == "__main__":
    sys.exit(main())
