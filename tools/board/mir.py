"""Reads the MIR of built libraries, which is JSON. A form is its name alone, or an object of its name and its parts; a record is an object of fields."""
import json


class Unknown(Exception):
    """What is not known here. The message names it."""


def written(form):
    try:
        return json.dumps(form, separators=(",", ":"))
    except RecursionError:      # a body is a chain of forms, one inside of the other
        return str(name_of(form))


def unknown(what, form):
    raise Unknown("unknown %s: %.200s" % (what, form if isinstance(form, str) else written(form)))


def parse(text):
    """A list of definitions, each of a name and a function."""
    try:
        return [items(one, 2) for one in items(json.loads(text))]
    except json.JSONDecodeError as problem:
        raise Unknown("unknown text: no JSON: %s" % problem) from None


def split(form, what, known):
    """The name of a form and its parts. `known` has the forms that are taken, each with the number of its parts: "Skip/0 Seq/2"."""
    (name, inside), = form.items() if isinstance(form, dict) and len(form) == 1 else ((form, []),)
    if isinstance(name, str):
        if "%s/1" % name in known.split() and isinstance(form, dict):
            return name, [inside]
        if isinstance(inside, list) and "%s/%d" % (name, len(inside)) in known.split() and isinstance(form, dict) == bool(inside):
            return name, inside
    return unknown(what, form)


def parts(form, what, known):
    """The parts of the one form that is taken here."""
    return split(form, what, known)[1]


def record(form, what, names):
    """The fields of a record, which has these and no others."""
    if not isinstance(form, dict) or sorted(form) != sorted(names.split()):
        unknown(what, form)
    return [form[name] for name in names.split()]


def items(form, count=None):
    """A list; where `count` is given, of so many."""
    return form if isinstance(form, list) and count in (None, len(form)) else unknown("list", form)


def name_of(form):
    return next(iter(form)) if isinstance(form, dict) and form else form


def number(form):
    return form if isinstance(form, int) and not isinstance(form, bool) and form >= 0 else unknown("number", form)


def tree(words):
    """The body of a function. It is a list in which the statements within a statement stand behind it, in their order; here they become parts."""
    rest = list(reversed(items(words)))
    made = []       # each statement that is begun: what it makes of those within it, how many it still wants, and those that it has

    def begin(word):
        name = name_of(word)
        if word == "Seq":
            return lambda within: {"Seq": within}, 2
        if word in ("Block", "Loop"):
            return lambda within: {word: within[0]}, 1
        if name == "If" and isinstance(word, dict):
            return lambda within: {"If": [word["If"], *within]}, 2
        if name == "Switch" and isinstance(word, dict):
            on, keys, default = items(word["Switch"], 3)
            if not isinstance(default, bool):
                unknown("switch", word)
            arms = [items(one) for one in items(keys)]
            return lambda within: {"Switch": [on, arms, within[:len(arms)], within[len(arms):]]}, len(arms) + default
        return lambda within: word, 0

    while True:
        if not rest:
            unknown("end", "a body ends before its last statement")
        finish, wants = begin(rest.pop())
        made.append((finish, wants, []))
        while len(made[-1][2]) == made[-1][1]:
            finish, _, within = made.pop()
            whole = finish(within)
            if not made:
                return whole if not rest else unknown("end", "a body goes on behind its last statement")
            made[-1][2].append(whole)
