"""Makes a world smaller as long as a check still fails on it, and tells what is left."""
from trials.trial import Trial

TRIES = 600


class Shrinking:
    """A world on which a check fails, and how many smaller ones may still be tried."""

    def __init__(self, program, world, check, differs):
        self.program, self.check, self.left = program, check, TRIES
        self.world, self.differs = world, differs

    def take(self, lines, files):
        """Keeps a smaller world where the check still fails on it."""
        if self.left == 0:
            return False
        self.left -= 1
        world = self.world.with_changed(lines, files)
        _, differs = Trial(self.program, world).try_check(self.check)
        if differs is None:
            return False
        self.world, self.differs = world, differs
        return True

    def without_pieces(self, pieces, take):
        """Takes out ever smaller runs of pieces; whether some could be."""
        shrunk, size = False, max(1, len(pieces) // 2)
        while size:
            place = 0
            while place < len(pieces):
                fewer = pieces[:place] + pieces[place + size:]
                if take(fewer):
                    pieces, shrunk = fewer, True
                else:
                    place += size
            size //= 2
        return shrunk

    def shrink(self):
        """Takes out lines, files and lines of files, until nothing more can go."""
        while True:
            shrunk = self.without_pieces(
                self.world.lines, lambda lines: self.take(lines, self.world.files))
            shrunk |= self.without_pieces(
                list(self.world.files), lambda names: self.take(
                    self.world.lines, {name: self.world.files[name] for name in names}))
            for name in list(self.world.files):
                shrunk |= self.without_pieces(
                    self.world.files[name].splitlines(keepends=True),
                    lambda own: self.take(self.world.lines,
                                          {**self.world.files, name: b"".join(own)}))
            if not shrunk or self.left == 0:
                return


def report(program, world, check, differs):
    """What is printed of a check that failed on a world."""
    shrinking = Shrinking(program, world, check, differs)
    again = shrinking.take(world.lines, world.files)
    if again:
        shrinking.shrink()
    parts = [f"world {world.number}: {check.__name__.replace('_', ' ')}", shrinking.differs]
    if not again:
        parts.append("(by itself the check doesn't fail; it did behind the lines of others)")
    parts.append("script:")
    parts += ["  " + printable(line) for line in shrinking.world.lines]
    for name, text in shrinking.world.files.items():
        parts.append(f"file {name}:")
        parts += ["  " + printable(line)
                  for line in text.decode("utf-8", "surrogateescape").splitlines()]
    return "\n".join(parts) + "\n"


def printable(line):
    """A line as it is, or as Python spells it where it has odd bytes."""
    return line if line.isprintable() and len(line) < 200 else repr(line)[:400]
