"""Halts the example port on the desk at six places and prints its table, and then what a broken table and a wrong word give. tests/gdb/run
starts it behind tools/gdb/nonthachak.py, whose COLUMNS it knows, and compares what it writes to the file that NONTHACHAK_OUT names."""

import os

import gdb


def show(title, words="table"):
    out.write("== %s\n" % title)
    try:
        out.write(gdb.execute("nonthachak " + words, to_string=True))
    except gdb.error as wrong:
        out.write("error: %s\n" % wrong)


def go_to(function):
    gdb.Breakpoint(function, temporary=True)
    gdb.execute("continue" if started else "run", to_string=True)


def poke(what, number, value):
    offset, width, _ = next(column[:3] for column in COLUMNS if column[3] == what)
    for at, byte in enumerate(value.to_bytes(width, "little")):
        gdb.execute("set variable table[%d] = %d" % (offset + width * number + at, byte))


gdb.execute("set confirm off")
gdb.execute("set pagination off")
remote = os.environ.get("NONTHACHAK_STUB")
if remote:
    gdb.execute("target remote " + remote, to_string=True)
started = bool(remote)
with open(os.environ["NONTHACHAK_OUT"], "w") as out:
    go_to("first_case")
    started = True
    show("the fresh table")
    go_to("ntk_priority_of")
    show("the kiosk's loop: the decoder holds the clock, the reader waits for it, the output sleeps")
    show("by its address", "&table")
    go_to("card_and_clock")
    show("the loop's end, after two ticks")
    go_to("ntk_flags_of")
    show("the reader waits for card and clock, the clock has come")
    go_to("ntk_message_of")
    show("the decoder has taken one of two frames, the reader sleeps")
    go_to("ntk_slot_of")
    show("the decoder has taken both, and waits for the next")

    # A semaphore with a count, one whose waiter is no task; a task that waits for what nobody knows, one without a quantum, one that is free
    # and suspended; a mutex that is free and has a waiter; a gap in the able queue; no default quantum; one running that is no task; ready levels
    # that have no able task, and one that has a task and no bit. A channel that holds more than its capacity, and has a waiter; a free one with too
    # great a capacity; one without any; one with a message behind those that it holds; a free one with a waiter.
    poke("semaphore used", 3, 1)
    poke("semaphore count", 3, 0x04030201)
    poke("semaphore used", 15, 1)
    poke("queue", 1 + 15, 200)
    poke("task state", 8, 9)
    poke("task quantum", 8, 65535)
    poke("task left", 8, 0x0201)
    poke("task marked", 8, 1)
    poke("task due", 8, 4294967295)
    poke("task outcome", 8, 7)
    poke("task used", 10, 1)
    poke("task suspend", 31, 250)
    poke("queue", 17, 1)
    poke("channel held", 3, 3)
    poke("channel messages", 3, 7)
    poke("channel capacity", 5, 40)
    poke("channel used", 6, 1)
    poke("channel used", 7, 1)
    poke("channel capacity", 7, 2)
    poke("channel held", 7, 1)
    poke("channel messages", 7, 4294967295 | 9 << 64)
    poke("queue", 41 + 15, 2)
    poke("queue", 0, 32 << 8)
    poke("tick", 0, 0x01020304)
    poke("default quantum", 0, 0)
    poke("depth", 0, 250)
    poke("running", 0, 33)
    poke("ready", 0, 1 << 33 | 1)
    show("a broken table")

    show("no word", "")
    show("no such name", "nowhere")
    show("no memory", "5")
    show("an array of another length", "*(unsigned char (*)[100])table")
    gdb.execute("kill", to_string=True)
