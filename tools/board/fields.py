"""Structs and unions that are set whole from a value in braces, set field by field instead. Of such a value gcc makes a copy on the stack, one more for
each variant of a union, and zeroes in it what no field is set of; where it has 32 bytes, as a task has, it calls memset for that. A value that is made for
the next line alone, as what a variant holds is, is set where it goes to."""
import re
from collections import Counter

LOCAL = re.compile(r"(?<![.>\w])v\d+\b")
SET = re.compile(r"( *)(v\d+) = (\((?:struct|union) \w+\)\{ \..+ \});\Z")     # an array has no names there
VALUE = re.compile(r"\((struct|union) \w+\)\{ (?:\.(v\d+) = \{ (.+) \}|(.+)) \}\Z")
FIELD = re.compile(r"\.(\w+) = (.+)\Z")
PLAIN = re.compile(r"(v\d+)(?:\.\w+)*\Z|\d+u\Z|UINT\d+_C\(\d+\)\Z|true\Z|false\Z")   # what no set field changes: another local, a number


def by_field(lines, parameters):
    """The lines of a body, which do the same."""
    told = Counter(local for line in lines for local in LOCAL.findall(line))
    often = Counter(is_set.group(2) for is_set in map(SET.match, lines) if is_set)
    done, made = [], {}     # made: a local that the next line alone reads, with its line and its value
    for line, after in zip(lines, lines[1:] + [""]):
        is_set = SET.match(line)
        if not is_set:
            done.append(line)
            continue
        indent, local, value = is_set.groups()
        if told[local] == 2 and local not in parameters and SET.match(after) and local in operands(after):
            made[local] = line, value
            continue
        # A union that is always the same variant stays whole: gcc warns of the others, which nobody looks at.
        fields = fields_of(local, local, value, made) if often[local] > 1 or value.startswith("(struct") else None
        done += [line for line, _ in made.values()] + [line] if fields is None else ["%s%s = %s;" % (indent, *one) for one in fields]
        made = {}
    return done


def operands(line):
    """What the fields of the value in a line begin with, as text."""
    return [text for _, text in named(*VALUE.match(SET.match(line).group(3)).groups())]


def named(kind, variant, of_variant, of_struct):
    """The fields of a value, from where it stands, each with its text."""
    inside, depth, texts = of_variant or of_struct, 0, [""]
    for c in inside:
        depth += (c in "({") - (c in ")}")
        if c == "," and depth == 0:
            texts.append("")
        else:
            texts[-1] += c
    at = "." + variant if variant else ""
    return [(at + "." + name, text) for name, text in (FIELD.match(one.strip()).groups() for one in texts)]


def fields_of(local, at, value, made):
    """The fields of a value that comes to stand at a place in this local, each place with its text; none where one is bytes, or may be a part of the
    local."""
    fields = []
    for name, text in named(*VALUE.match(value).groups()):
        plain = PLAIN.match(text)
        inner = fields_of(local, at + name, made[text][1], made) if text in made else [(at + name, text)] if plain and plain.group(1) != local else None
        if inner is None:
            return None
        fields += inner
    return fields
