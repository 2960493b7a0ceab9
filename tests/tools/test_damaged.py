"""Damaged sources and jobs: whatever is in a file, each verb says something and ends with a status of the help."""

import random
import unittest

from support import HOME, assembled, examples, program, scripts_of, tool

WORDS = ["if", "else", "while", "end", "print", "root", "first child", "new right sibling", "remove first child", "set", "cover", "empty",
         "value", "children", "mean(", ")", ",", ":", ":=", "=", "<", "-", "house", "content house", "list house", "record", "tree",
         "script", "99999999999", "\0", "\x1b", "\t", "\n", "  ", "#", "é"]
VERBS = (("run", "-"), ("run", "-", "--trace", "--budget", "300"), ("assemble", "-", "-o", "-"), ("list", "-"), ("picture", "-"),
         ("picture", "-", "--svg", "-"), ("clean", "-", "-"), ("arrange", "-", "-"), ("probe", "-", "--count", "5", "--budget", "1000"))
BASE = HOME / "examples" / "season.yoke"
BARE_VERBS = (("run", str(BASE), "-"), ("run", str(BASE), "-", "--trace", "--budget", "300"), ("list", "--bare", "-"),
              ("assemble", "--bare", "-", "-o", "-", "--tree", str(BASE)), ("list", "--bare", "-", "--tree", str(BASE)))


def damaged(dice, text, data):
    """A source, or its bytes, with some bytes put in, taken out or changed."""
    data = bytearray(data if dice.random() < 0.3 else text.encode())
    for _ in range(dice.randint(0, 5)):
        at, kind = dice.randrange(len(data) + 1), dice.random()
        if kind < 0.5:
            data[at:at] = dice.choice(WORDS).encode()
        elif kind < 0.7:
            del data[at:at + dice.randint(1, 8)]
        elif at < len(data):
            data[at] = dice.randrange(256)
    return bytes(data)


class Damaged(unittest.TestCase):
    def each(self, verbs, pairs):
        """Verbs on damaged pairs of a source and its bytes."""
        dice, seen = random.Random(2), set()
        for _ in range(250):
            data, words = damaged(dice, *dice.choice(pairs)), dice.choice(verbs)
            done = tool(*words, data=data, INSPECT=program("inspect"), REPLAY=program("replay"), HISTORY=program("history"), CLEAN=program("clean"),
                        ARRANGE=program("arrange"))
            self.assertIn(done.status, (0, 1, 2))
            for text in (done.bytes.decode("utf-8", "replace"), done.error):
                self.assertNotIn("lease report", text, (words, data))
            seen.add(done.status)
        self.assertEqual(seen, {0, 1, 2})

    def test_each_verb(self):
        texts = [path.read_text(encoding="utf-8") for path in examples()]
        self.each(VERBS, [(text, assembled(text)) for text in texts])

    def test_follow_on_scripts(self):
        pairs = []
        for path in scripts_of(BASE):
            done = tool("assemble", "--bare", str(path), "--tree", str(BASE), "-o", "-")
            self.assertEqual((done.status, done.error), (0, ""))
            pairs.append((path.read_text(encoding="utf-8"), done.bytes))
        self.each(BARE_VERBS, pairs)


if __name__ == "__main__":
    unittest.main()
