"""One disk or two: of which the record is read, and what a rewrite writes where.

Of two a disk holds a generation where it begins with 02 and four bytes ff, a number from 1 on in four bytes, and at least one byte more:
its record stands behind that head. Any other disk is of generation 0, and its record stands at its start; so does that of a single one.
"""
MARK, HEAD, LAST = b"\x02\xff\xff\xff\xff", 9, 2**32 - 1


def generation_of(data):
    return int.from_bytes(data[len(MARK) : HEAD], "big") if data.startswith(MARK) and len(data) > HEAD else 0


def bytes_of_word(word):
    return b"" if word == "-" else bytes.fromhex(word)


class Disks:
    """The bytes of one disk, or of two. Of two the greater generation is read, at a tie the first."""

    def __init__(self, *held):
        self.held = held

    def __eq__(self, other):
        return self.held == other.held

    def __str__(self):
        return " ".join(it.hex() or "-" for it in self.held)

    @property
    def place(self):
        """Which is read."""
        return int(len(self.held) == 2 and generation_of(self.held[1]) > generation_of(self.held[0]))

    @property
    def other(self):
        """Which is not, where there are two."""
        return 1 - self.place if len(self.held) == 2 else None

    @property
    def generation(self):
        return generation_of(self.held[self.place]) if len(self.held) == 2 else 0

    @property
    def head(self):
        """What stands before the record."""
        return self.held[self.place][:HEAD] if self.generation else b""

    @property
    def record(self):
        return self.held[self.place][len(self.head) :]

    def put(self, place, data):
        return Disks(*(data if it == place else held for it, held in enumerate(self.held)))

    def hold(self, record):
        """The same disks, where the one that is read holds another record."""
        return self.put(self.place, self.head + record)

    def may_rewrite(self):
        """There is another disk, and a number for its generation."""
        return self.other is not None and self.generation < LAST

    def rewritten(self, record):
        """The other disk holds this record as the next generation."""
        return self.put(self.other, MARK + (self.generation + 1).to_bytes(4, "big") + record)

    def may_be_left(self, told, is_rewriting):
        """Whether a call that was cut off may leave these: a step or an opening writes on the disk that is read alone, and leaves its
        generation; a rewrite on the other alone, which is read where it is of the next."""
        if len(told.held) != len(self.held):
            return False
        written = self.other if is_rewriting else self.place
        same = all(it == written or told.held[it] == self.held[it] for it in range(len(self.held)))
        return same and told.generation == self.generation + (is_rewriting and told.place == written)
