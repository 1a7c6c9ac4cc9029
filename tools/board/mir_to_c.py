"""mir_to_c.py FILE <MIR: writes the MIR that tools/board/mir prints as one C99 file. What is not known is named, and nothing is written."""
import sys

from instances import Program, within
from mir import Unknown, parse
from shapes import Types

HEAD = """/* nonthachak.c: the proved kernel as C, for processors that the toolchain does not compile for; docs/BOARDS.md tells how to use it.
 * Made by tools/board from the MIR that the proofs are about, a function of C for each of its functions. Not to be edited. */
#include <stdbool.h>
#include <stddef.h>
#include <stdint.h>
#include "nonthachak.h"

/* An array is its bytes, the least significant first, on every processor. */
#define BYTES8(x) (x)
#define BYTES32(x) (uint8_t)(x), (uint8_t)((x) >> 8), (uint8_t)((x) >> 16), (uint8_t)((x) >> 24)
"""

# What is written only where something uses it (a compiler would warn), after its name. Leading zeros are counted by halves, since a board's registers
# have 32 bits.
HELPERS = {
    "BYTES16": """#define BYTES16(x) (uint8_t)(x), (uint8_t)((x) >> 8)
""",
    "BYTES64": """#define BYTES64(x) BYTES32(x), BYTES32((x) >> 32)
""",
    "load16": """
static inline uint16_t load16(const uint8_t *p)
{
    return (uint16_t)(p[0] | (uint32_t)p[1] << 8);
}
""",
    "load32": """
static inline uint32_t load32(const uint8_t *p)
{
    return p[0] | (uint32_t)p[1] << 8 | (uint32_t)p[2] << 16 | (uint32_t)p[3] << 24;
}
""",
    "load64": """
static inline uint64_t load64(const uint8_t *p)
{
    return load32(p) | (uint64_t)load32(p + 4) << 32;
}
""",
    "store16": """
static inline void store16(uint8_t *p, uint16_t x)
{
    p[0] = (uint8_t)x;
    p[1] = (uint8_t)(x >> 8);
}
""",
    "store32": """
static inline void store32(uint8_t *p, uint32_t x)
{
    p[0] = (uint8_t)x;
    p[1] = (uint8_t)(x >> 8);
    p[2] = (uint8_t)(x >> 16);
    p[3] = (uint8_t)(x >> 24);
}
""",
    "store64": """
static inline void store64(uint8_t *p, uint64_t x)
{
    store32(p, (uint32_t)x);
    store32(p + 4, (uint32_t)(x >> 32));
}
""",
    "leading_zeros64": """
/* How many zeros stand before the first 1; 64 where there is none. */
static inline uint32_t leading_zeros64(uint64_t x)
{
    uint32_t high = (uint32_t)(x >> 32), part = high != 0 ? high : (uint32_t)x, zeros = high != 0 ? 0 : 32, step;

    if (part == 0)
        return 64;
    for (step = 16; step > 0; step /= 2)
        if (part >> (32 - step) == 0) {
            part <<= step;
            zeros += step;
        }
    return zeros;
}
""",
}
NESTED = 8  # so often may a function be called within itself, each time with other arguments


def helpers(lines):
    """The helpers that these lines use, and those that they use themselves."""
    wanted, text = [], "\n".join(lines)
    for name in reversed(HELPERS):      # a helper uses those before it
        if name + "(" in text:
            wanted.append(HELPERS[name])
            text += HELPERS[name]
    return "".join(reversed(wanted))


def translated(key, program, done, callers):
    """Puts the C of a function into `done`, behind all that it calls."""
    if key in callers:
        raise Unknown("recursion, which has no bound of the stack: " + " ".join(symbol for symbol, *_ in [*callers, key]))
    if sum(symbol == key[0] for symbol, *_ in callers) >= NESTED:
        raise Unknown("a function within itself with ever other arguments: " + key[0])
    if key in done:
        return
    one = program.instances[key]
    lines = within(key[0], one.translate)
    for callee in one.callees:
        translated(callee, program, done, [*callers, key])
    done[key] = lines


def passed(definitions, keys, addressed):
    """One pass: the program and, by the keys of the instances that C's calls reach, their C. These keys are known to be among them, and these fields
    of structs to have an address."""
    program, done = Program(definitions, Types(addressed)), {}
    for key in keys:
        program.know(key)
    for key in program.exported():
        translated(key, program, done, [])
    return program, done


def translate(text):
    """A pass finds what the next one has to know before it names a type or an instance, so that their order is that of the keys."""
    definitions, found, known = parse(text), ([], set()), None
    while found != known:
        known = found
        program, done = passed(definitions, *known)
        found = (sorted(done), program.types.addressed)
    names = [program.instances[key].name for key in done]
    if len(set(names)) != len(names):
        raise Unknown("two functions that have one name in C")
    lines = [line for one in done.values() for line in one]
    return "\n".join([HEAD + helpers(lines), *program.types.lines] + ["\n" + "\n".join(one) for one in done.values()]) + "\n"


if __name__ == "__main__":
    sys.setrecursionlimit(100000)   # a body is a chain of forms, one inside of the other
    try:
        made = translate(sys.stdin.read())
    except Unknown as problem:
        sys.exit("tools/board: %s" % problem)
    with open(sys.argv[1], "w", encoding="ascii", newline="\n") as file:
        file.write(made)
