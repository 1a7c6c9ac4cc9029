"""The kernel's table of a halted board, printed by gdb in columns.

    (gdb) source tools/gdb/nonthachak.py
    (gdb) nonthachak table

The word is the image: an array of bytes as the port has it, or its address. Only memory is read: nothing is called on the board, and the
table need not be sound. What is not in use is left out; `help nonthachak` tells how the rest is shown.
"""

import gdb

# docs/IMAGE.md, row by row: offset, width, count, what. tests/gdb/run holds it against that page and against NTK_IMAGE_SIZE.
COLUMNS = [
    (0, 1, 32, "task used"),
    (32, 1, 32, "task base"),
    (64, 1, 32, "task work"),
    (96, 1, 32, "task suspend"),
    (128, 1, 32, "task state"),
    (160, 1, 32, "task object"),
    (192, 1, 32, "task marked"),
    (224, 1, 32, "task outcome"),
    (256, 1, 32, "task test"),
    (288, 1, 32, "task consume"),
    (320, 2, 32, "task quantum"),
    (384, 2, 32, "task left"),
    (448, 4, 32, "task due"),
    (576, 4, 32, "task mask"),
    (704, 4, 32, "task message"),
    (832, 1, 16, "semaphore used"),
    (848, 4, 16, "semaphore count"),
    (912, 1, 16, "mutex used"),
    (928, 1, 16, "mutex holder"),
    (944, 1, 16, "mutex nesting"),
    (960, 1, 8, "group used"),
    (968, 4, 8, "group flags"),
    (1000, 1, 16, "channel used"),
    (1016, 1, 16, "channel capacity"),
    (1032, 1, 16, "channel held"),
    (1048, 32, 57, "queue"),
    (2872, 4, 1, "tick"),
    (2876, 2, 1, "default quantum"),
    (2878, 1, 1, "depth"),
    (2879, 1, 1, "running"),
    (2880, 8, 1, "ready"),
    (2888, 128, 16, "channel messages"),
]
SIZE = COLUMNS[-1][0] + COLUMNS[-1][1] * COLUMNS[-1][2]

# The queue of number 0 of each kind of object; that of the able tasks is 0.
ABLE = 0
QUEUES = {"semaphore": 1, "mutex": 17, "group": 33, "channel": 41}
MOST_MESSAGES = 32
LEVELS = 64  # bits of the ready word; level 0 has the top one

STATES = ["plain", "delayed", "semaphore", "mutex", "group", "channel"]
OUTCOMES = ["given", "timed out", "aborted", "deleted"]
TESTS = ["all set", "any set", "all clear", "any clear"]


def named(names, number):
    return names[number] if number < len(names) else "%d?" % number


class Image:
    """The bytes of an image, read by the list of columns."""

    def __init__(self, data):
        self.data = data
        self.places = {what: (offset, width, count) for offset, width, count, what in COLUMNS}

    def bytes_of(self, what, number):
        offset, width, _ = self.places[what]
        return self.data[offset + width * number : offset + width * (number + 1)]

    def get(self, what, number=0):
        return int.from_bytes(self.bytes_of(what, number), "little")

    def quantum(self, what, number=0, used=1):
        """A quantum, which only a free task has at 0."""
        quantum = self.get(what, number)
        return "0?" if used == 1 and quantum == 0 else quantum

    def count(self, what):
        return self.places[what][2]

    def task(self, what, number=0):
        """Where none may stand: a task's number plus 1, or 0."""
        plus_one = self.get(what, number)
        return "-" if plus_one == 0 else str(plus_one - 1) if plus_one <= 32 else "%d?" % plus_one

    def queue(self, number):
        slots = self.bytes_of("queue", number).rstrip(b"\0")
        return " ".join("-" if s == 0 else str(s - 1) if s <= 32 else "%d?" % s for s in slots) or "-"

    def is_able(self, number):
        return [self.get("task " + what, number) for what in ("used", "state", "suspend")] == [1, 0, 0]

    def levels(self):
        """Those whose bit is set, and behind them those that have an able task and no bit."""
        able = {self.get("task work", number) for number in range(self.count("task used")) if self.is_able(number)}
        bits = {level for level in range(LEVELS) if self.get("ready") >> (LEVELS - 1 - level) & 1}
        words = " ".join("%d%s" % (level, "" if level in able else "?") for level in sorted(bits)) or "-"
        return words + "".join(", not %d?" % level for level in sorted(able - bits))

    def messages(self, number):
        """Those that a channel holds, the next first; behind them what stands in a slot that should be 0."""
        held, slots = self.get("channel held", number), self.bytes_of("channel messages", number)
        words = [int.from_bytes(slots[at : at + 4], "little") for at in range(0, len(slots), 4)]
        while len(words) > held and words[-1] == 0:
            words.pop()
        return " ".join("%d%s" % (word, "" if slot < held else "?") for slot, word in enumerate(words)) or "-"

    def numbers(self, owner):
        """Each number of a kind that is in use or has a field that is not 0, as it is printed."""
        fields = [what for what in self.places if what.split()[0] == owner and " " in what]
        for number in range(self.count(owner + " used")):
            if self.get(owner + " used", number) == 1:
                yield number, str(number)
            elif any(self.get(what, number) for what in fields):
                yield number, "%d?" % number
            elif owner in QUEUES and self.queue(QUEUES[owner] + number) != "-":
                yield number, "%d?" % number


def state_of(image, number):
    state = image.get("task state", number)
    words = named(STATES, state)
    if state >= 2:
        words += " %d" % image.get("task object", number)
    if state == 4:
        words += " 0x%x %s" % (image.get("task mask", number), named(TESTS, image.get("task test", number)))
        words += ", consumes" if image.get("task consume", number) else ""
    return words


def task_row(image, number, shown):
    due = image.get("task due", number) if image.get("task marked", number) else "-"
    fields = [image.get("task " + what, number) for what in ("base", "work", "suspend")]
    fields += [image.quantum("task quantum", number, image.get("task used", number)), image.get("task left", number)]
    fields += [due, image.get("task message", number)]
    return [shown] + fields + [state_of(image, number), named(OUTCOMES, image.get("task outcome", number))]


def semaphore_row(image, number, shown):
    return [shown, image.get("semaphore count", number), image.queue(QUEUES["semaphore"] + number)]


def mutex_row(image, number, shown):
    return [shown, image.task("mutex holder", number), image.get("mutex nesting", number), image.queue(QUEUES["mutex"] + number)]


def group_row(image, number, shown):
    return [shown, "0x%08x" % image.get("group flags", number), image.queue(QUEUES["group"] + number)]


def channel_row(image, number, shown):
    capacity, held = (image.get("channel " + what, number) for what in ("capacity", "held"))
    right = capacity <= MOST_MESSAGES and (capacity > 0 or image.get("channel used", number) != 1)
    fields = ["%d%s" % (capacity, "" if right else "?"), "%d%s" % (held, "" if held <= capacity else "?")]
    return [shown] + fields + [image.messages(number), image.queue(QUEUES["channel"] + number)]


# A kind, the heads of its columns, how many of them are numbers and stand to the right, and its row.
SECTIONS = [
    ("task", ["task", "base", "work", "suspended", "quantum", "left", "due", "message", "state", "last wait"], 8, task_row),
    ("semaphore", ["semaphore", "count", "waiters"], 2, semaphore_row),
    ("mutex", ["mutex", "holder", "nesting", "waiters"], 3, mutex_row),
    ("group", ["group", "flags", "waiters"], 2, group_row),
    ("channel", ["channel", "capacity", "held", "messages", "waiters"], 3, channel_row),
]


def lines_of(rows, numbers):
    widths = [max(len(str(row[c])) for row in rows) for c in range(len(rows[0]))]
    for row in rows:
        cells = [str(x).rjust(w) if c < numbers else str(x).ljust(w) for c, (x, w) in enumerate(zip(row, widths))]
        yield "  ".join(cells).rstrip()


def told(image):
    single = (image.get("tick"), image.quantum("default quantum"), image.get("depth"), image.task("running"))
    yield "tick %d, default quantum %s, lock depth %d, running %s" % single
    yield "able: %s" % image.queue(ABLE)
    yield "ready levels: %s" % image.levels()
    for owner, heads, numbers, row_of in SECTIONS:
        rows = [row_of(image, number, shown) for number, shown in image.numbers(owner)]
        if rows:
            yield ""
            yield from lines_of([heads] + rows, numbers)


def right_size(what, size):
    if size != SIZE:
        raise gdb.GdbError("nonthachak: %s has %d bytes, and an image %d: another version?" % (what, size, SIZE))


def address_of(words):
    value = gdb.parse_and_eval(words)
    kind = value.type.strip_typedefs()
    if kind.code == gdb.TYPE_CODE_ARRAY:
        right_size(words, kind.sizeof)
        return int(value.address)
    return int(value)


def read_image(words):
    address = address_of(words)
    try:  # known where the program was compiled with -g3
        size = int(gdb.parse_and_eval("NTK_IMAGE_SIZE"))
    except gdb.error:
        size = SIZE
    right_size("NTK_IMAGE_SIZE", size)
    return Image(bytes(gdb.selected_inferior().read_memory(address, SIZE)))


class Nonthachak(gdb.Command):
    """Print the kernel's table: nonthachak IMAGE.

IMAGE is the array of bytes that the port has, or its address. The state is plain, delayed, or the object that the task waits for, of a
group with the flags, the test and whether it consumes them. Queues have the most urgent first, channels (message queues) the message that
is taken next. The ready levels are those whose bit is set in the ready word. A ? stands at what a sound table cannot hold: a number beyond
its values, which is printed as it stands, one that is not in use and has fields, messages or waiters, or a level whose bit is not as the
able tasks have it."""

    def __init__(self):
        super().__init__("nonthachak", gdb.COMMAND_DATA, gdb.COMPLETE_EXPRESSION)

    def invoke(self, words, from_tty):
        if not words.strip():
            raise gdb.GdbError("nonthachak: where is the image? As in: nonthachak table")
        try:
            image = read_image(words)
        except gdb.error as wrong:
            raise gdb.GdbError("nonthachak: %s" % wrong)
        for line in told(image):
            print(line)


Nonthachak()
