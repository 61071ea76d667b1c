"""Random scripts over the images of images.py, with the reference's answer to each line."""

import images
import script
from walk import FRAME, TOP

ALL_ONES = (1 << 64) - 1
QUESTIONS = 60  # to each image, besides those that damage it
COUNTS = script.Session.OPERATIONS | {"frame": 1, "guest": 1}  # the numbers of each command for the monitor


class Script:
    """A script as it grows; `answers` has a pair for each line that prints: the line and its answer."""

    def __init__(self):
        self.session, self.lines, self.answers = script.Session(), [], []
        for line in ("ledger", "translate 1 0 r", *(f"{name} {'1 ' * COUNTS[name]}" for name in COUNTS)):
            self.add(line)  # before set-up

    def add(self, line):
        line = line if isinstance(line, bytes) else line.encode()
        self.lines.append(line)
        answer = self.session.answer(line)
        if answer is not None:
            self.answers.append((line, answer))

    def add_image(self, random):
        image = images.Image(random)
        self.add(f"setup {random.choice((15, 1025, 65536, 65537))} {image.base:#x} 0")
        self.add(f"setup {image.n} {image.base:#x} {random.choice((0, 1, image.n - 1))}")
        # RAM is all zero, so that it does not show which frame was a table for a moment.
        for line in ("create 1", "destroy 1", "invalidated 1", *edges(image)):
            self.add(line)
        for address, value in image.words.items():
            self.add(f"word {address:#x} {value:#x}")
        for page in image.pages:
            self.sweep(image, walk(image, image.root1, image.root2, page))
            self.sweep(image, stage2(image, image.root2, random.choice(list(image.where))))
        for _ in range(QUESTIONS):
            self.ask(image, question(image))
            if random.random() < 0.3:
                self.ask(image, about_ledger(image))

    def sweep(self, image, asked):
        """Damages each descriptor on the way, one at a time, and asks again."""
        self.add(asked)
        for address in dict.fromkeys(self.session.last.fetched):
            before = self.session.ram.word(address)
            self.add(f"word {address:#x} {images.damaged(image, address, before):#x}")
            self.add(asked)
            self.add(f"word {address:#x} {before:#x}")

    def ask(self, image, asked):
        """Asks; at times damages the image for good, or the question."""
        self.session.last = None
        self.add(asked)
        fetched = self.session.last and self.session.last.fetched
        if fetched and image.random.random() < 0.1:
            address = image.random.choice(fetched)
            self.add(f"word {address:#x} {images.damaged(image, address, self.session.ram.word(address)):#x}")
        if image.random.random() < 0.1 and not asked.startswith("create "):  # which might then create a guest
            self.add(garbled(image.random, asked))


def edges(image):
    """Words at both ends of RAM, of the addresses and of the numbers."""
    end = image.base + FRAME * image.n
    for at in (image.base - 8, image.base - 1, image.base, end - 8, end - 7, end, TOP - 8, ALL_ONES - 7, ALL_ONES):
        if at >= 0:
            yield f"word {at} {image.random.getrandbits(64):#x}"
            yield f"peek {at:#x}"


def stage2(image, root, ipa):
    return f"stage2 {root:#x} {ipa:#x} {image.random.choice('rwx')}"


def walk(image, root1, root2, va):
    return f"walk {root1:#x} {root2} {va:#x} {image.random.choice('rwx')} {image.random.choice(('el0', 'el1'))}"


def question(image):
    """A question whose roots and address are mostly good."""
    random = image.random
    mostly = lambda good, bad: good if random.random() < 0.9 else random.choice(bad)
    roots = image.places() + [TOP, TOP - FRAME, ALL_ONES, image.root2 + random.choice((1, 8, 2048))]
    root1, root2 = mostly(image.root1, roots), mostly(image.root2, roots)
    offset = random.randrange(FRAME)
    if random.random() < 0.3:
        ipa = random.choice(list(image.where)) + offset
        return stage2(image, root2, mostly(ipa, (TOP, TOP - 1, ALL_ONES, random.randrange(TOP))))
    va = random.choice(image.pages) & images.ADDRESS | offset
    return walk(image, root1, root2, mostly(va, (TOP, TOP - 1, ALL_ONES, va ^ 1 << random.randrange(64))))


def about_ledger(image):
    """An operation or a question with any numbers, while no guest exists: create is given no number of a guest."""
    random = image.random
    usual = (0, 1, 4, 5, FRAME, image.n - 1, image.n, 1 << 32, TOP, ALL_ONES)
    some = lambda: random.choice((*usual, random.getrandbits(64)))
    if random.random() < 0.1:
        return "ledger" if image.n <= 100 else f"translate {some()} {some()} {random.choice('rwx')}"
    name = random.choice(list(COUNTS))
    numbers = [some() for _ in range(COUNTS[name])]
    return f"create {5 + numbers[0] // 2}" if name == "create" else " ".join([name, *map(str, numbers)])


def garbled(random, line):
    """A line that somebody damaged."""
    words = line.split(" ")
    at = random.randrange(len(words))
    old, room = words[at], 4096 - len(line)
    words[at] = random.choice(
        ("", "#", "x", "el1", "0x", "-1", "1 2", "0x1_0", old.upper(), old + "q", old + " ", "z" * 4000, "y" * 9000)
        + (f"{ALL_ONES}", f"{ALL_ONES + 1}", f"{ALL_ONES:#x}", f"{ALL_ONES + 1:#x}", "0" * 99 + "1")
        + ("9" * random.randrange(1, 40), old + " " * (room - 1), old + " " * room)
    )
    text = " ".join(words).encode()
    cut = random.randrange(len(text) + 1)
    byte = random.choice((0, 9, 13, 27, 32, 127, 128, 255, random.randrange(11, 256)))
    return random.choice((text, text, text[:cut], text[:cut] + bytes([byte]) + text[cut:], text + b"\r", text + b" 1"))
