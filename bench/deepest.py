"""deepest.py FILE: how deep the stack goes below each function that nothing calls, by the file that gcc writes with -fcallgraph-info=su. Ends with 1
where that is no bound: a frame of no fixed size, a function of another file, or recursion."""
import re
import sys


def read(name):
    """Of each function the bytes of its frame, and whom it calls."""
    frames, calls = {}, {}
    for line in open(name, encoding="ascii"):
        titles = re.findall(r'(?:title|sourcename|targetname): "([^"]+)"', line)
        size = re.search(r"(\d+) bytes \(static\)", line)
        if line.startswith("node:"):
            frames[titles[0]] = int(size[1]) if size else sys.exit("deepest.py: no frame of a fixed size: " + titles[0])
        elif line.startswith("edge:"):
            calls.setdefault(titles[0], set()).add(titles[1])
    return frames, calls


def deepest(one, frames, calls, above=()):
    if one in above:
        sys.exit("deepest.py: recursion: " + one)
    return frames[one] + max((deepest(callee, frames, calls, (*above, one)) for callee in calls.get(one, ())), default=0)


if __name__ == "__main__":
    frames, calls = read(sys.argv[1])
    for one in sorted(set(frames) - set().union(*calls.values())):
        print("%-12s%6d" % (one, deepest(one, frames, calls)))
