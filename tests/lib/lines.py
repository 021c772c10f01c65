"""Random lines for the program iobuf, of which most can be carried out, since the replies tell what each name holds."""
import subprocess
from random import Random
from typing import NamedTuple

# The names of the program are the numbers below NAMES; that of NAMES itself is refused. If more than FULL hold
# something, one is dropped.
NAMES, FULL = 16, 12
KINDS = ("part", "parts", "view", "text")
# Commands, separated by commas, by the kinds of which {name} is one, or "" if it isn't in them. A command that is there
# twice is asked twice as often. The other words in braces are those of `Buffers.words`.
COMMANDS = {
    "": """new {free} {size} {align}, new {free} {size} 1, zeroed {free} {size} {align}, adopt {free} {bytes},
        bytes {free} {bytes}, static {free} {lo} {hi}, gather {free}{views}, gathermut {free}{buffers},
        build {free} {size}{items}""",
    "part parts": """put {name} {fitting}, put {name} {fitting}, fill {name} {byte} {space}, overwrite {name} {all},
        setlen {name} {capacity}, freeze {name} {onto}""",
    "part": "truncate {name} {at}, clear {name}",
    "view": """slice {name} {free} i{lower} e{upper}, slice {name} {free} e{lower} u, slice {name} {free} u i{upper},
        recover {name} {onto}, encode {name} {free}""",
    "view text": """split {name} {free} {at}, split {name} {free} {at}, clone {name} {free},
        decode {name} {free} 0 {at}, decode {name} {free} 0 9999""",
    "text": "append {name} {view}, append {name} {view}, prepend {name} {view}",
    "text parts": "coalesce {name} {onto}",
    "part parts view text": "advance {name} {at}, take {name} {at}, drop {name}",
}
CHOICES = [(kinds, command.strip()) for kinds, text in COMMANDS.items() for command in text.split(",")]
# What a thread of the machine asks: calls on a handle, new blocks, and questions on a handle or a record.
CALLS = "put {n},advance {n},split {n},slice {lo} {hi},freeze,recover,unique,demote,clone,clone,drop".split(",")
BLOCKS = ["new {base} 16 {align}", "new {base} 16 1", "external {base} 16", "static {n}"]
QUESTIONS = ["handle {old}", "record {old}", "handle {new}", "record {new}"]


class Held(NamedTuple):
    """What a name holds: its kind, how many bytes, and how much space; no kind if nothing is known of it."""

    kind: str = ""
    size: int = 0
    space: int = 0


class Session:
    """A program that answers line by line, the lines, and the replies. `half` is its argument: buf or owner."""

    def __init__(self, program, half, seed):
        self.half, self.random, self.lines, self.replies = half, Random(seed), [], []
        pipe = subprocess.PIPE
        self.ran = subprocess.Popen([program, half], stdin=pipe, stdout=pipe, text=True, bufsize=1)

    def ask(self, line):
        """The reply to a line. Raises EOFError if the program has ended."""
        self.lines.append(line)
        self.ran.stdin.write(f"{line}\n")
        if not (reply := self.ran.stdout.readline()):
            raise EOFError
        self.replies.append(reply.rstrip("\n"))
        return self.replies[-1]

    def make(self, count):
        """Asks `count` lines or a few more, fewer if the program ends, and returns the status."""
        try:
            while len(self.lines) < count:
                self.step()
            self.ran.stdin.close()
        except (EOFError, BrokenPipeError):
            pass
        return self.ran.wait()

    def number(self, most):
        """A number up to this, its ends often, and one more now and then."""
        within = [self.random.randint(0, most) for _ in range(5)]
        return self.random.choice([0, most, most, *within, most + (self.random.random() < 0.3)])

    def range(self, most):
        """Two such numbers, the lower first."""
        return sorted((self.number(most), self.number(most)))


class Buffers(Session):
    """Lines of `iobuf buf`. `held` has what each name holds."""

    def __init__(self, program, seed):
        super().__init__(program, "buf", seed)
        self.held = {}

    def names_of(self, kinds):
        """The names that hold one of these kinds."""
        return [name for name, held in self.held.items() if held.kind in kinds.split()]

    def step(self):
        """Asks a random command, and what the names in it hold then. Now and then its name is of another kind."""
        kinds, command = self.random.choice(CHOICES)
        fits = self.names_of(kinds) if kinds and self.random.random() < 0.98 else [self.random.randrange(NAMES + 1)]
        if len(self.held) > FULL:
            fits, command = list(self.held), "drop {name}"
        if not fits or "{view}" in command and not self.names_of("view"):
            return
        line = command.format(**self.words(self.random.choice(fits)))
        if self.ask(line).startswith(("ok", "bytes", "refused N9")):
            # A command that is refused with N9, Memory, may have consumed its names. An item of `build` is a name after
            # p. Other numbers of the line are among them: those names are looked at in vain.
            numbers = {int(it.removeprefix("p")) for it in line.split()[1:] if it.removeprefix("p").isdigit()}
            for name in sorted(numbers & set(range(NAMES))):
                self.look(name)

    def look(self, name):
        """Asks what a name holds: as in `part 6162+6` each chunk is its bytes, in hex, or -, and its space."""
        kind, *chunks = self.ask(f"show {name}").split()
        self.held.pop(name, None)
        if kind in KINDS:
            parted = [it.replace("-", "").partition("+") for it in chunks]
            size = sum(len(digits) for digits, _, _ in parted) // 2
            self.held[name] = Held(kind, size, sum(int(space or 0) for _, _, space in parted))

    def words(self, name):
        """What replaces each word in braces in a command on this name; most of it can be carried out. The range from
        `lower` to `upper` is of its bytes, that from `lo` to `hi` of the alphabet's 26."""
        draw, (_, size, space) = self.random, self.held.get(name, Held())
        is_rare = draw.random() < 0.03
        free = draw.choice([it for it in range(NAMES + 1) if is_rare or (it < NAMES and it not in self.held)])
        views = self.some("view")
        lower, upper = self.range(size)
        lo, hi = sorted(draw.choices(range(27), k=2))
        return {
            "name": name,
            "free": free,
            "onto": draw.choice([name, free]),
            "view": draw.choice(views or [0]),
            "views": "".join(f" {it}" for it in views + views[:1] * is_rare),  # A name twice is refused.
            "buffers": "".join(f" {it}" for it in self.some("part")),
            "items": "".join(f" i{self.digits(draw.randint(1, 20))} p{it}" for it in views),
            "size": draw.choice([0, 1, 7, 24, 24, 100, 5000]),
            "align": draw.choice([1, 1, 1, 2, 8, 64, 3, 0]),  # 3 and 0 are no alignments.
            "at": self.number(size),
            "space": self.number(space),
            "capacity": self.number(size + space),
            "lo": lo,
            "hi": hi,
            "lower": lower,
            "upper": upper,
            "byte": draw.randrange(256),
            "bytes": self.digits(draw.choice([0, 1, 20, 20, 300])),
            "fitting": self.digits(self.number(min(space, 300))),
            "all": self.digits(size + (draw.random() < 0.1)),
        }

    def digits(self, n):
        """So many random bytes in hex, or - if there are none."""
        return self.random.randbytes(n).hex() or "-"

    def some(self, kind):
        """Some names of a kind, in any order."""
        names = self.names_of(kind)
        return self.random.sample(names, min(len(names), self.random.randint(0, 8)))


class Machine(Session):
    """Lines of `iobuf owner`, with three threads: the handles that were made, the address of the last block, and which
    threads have a call that isn't done."""

    def __init__(self, program, seed):
        super().__init__(program, "owner", seed)
        self.made, self.base, self.is_busy = [], 64, [False] * 3
        self.ask(f"machine 3 {self.random.choice([3, 9, 1000])} {self.random.choice([32, 64])}")

    def step(self):
        """Asks a random step of a thread, and what a handle or a record is then."""
        thread, (lo, hi) = self.random.randrange(3), self.range(16)
        words = self.random.choice(CALLS).format(n=hi, lo=lo, hi=hi).split()
        line = " ".join([words[0], str(self.random.choice(self.made[-12:] or [0])), *words[1:]])
        if self.is_busy[thread] and self.random.random() < 0.95:
            line = "go"
        elif self.random.random() < 0.15:
            self.base += 64
            align = self.random.choice([1, 1, 8, 64, 3])
            line = self.random.choice(BLOCKS).format(base=self.base, align=align, n=hi)
        word, *more = self.ask(f"{thread} {line}" + " deny" * (self.random.random() < 0.03)).split()
        self.is_busy[thread] = word == "more" or more == ["O1", "Busy"]
        self.made += map(int, more if word == "made" else [])
        old = self.random.choice(self.made[-12:] or [0])
        self.ask(self.random.choice(QUESTIONS).format(old=old, new=len(self.made)))
        if self.random.random() < 0.01:
            self.ask("freed")
