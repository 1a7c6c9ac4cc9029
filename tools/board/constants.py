"""Constants that a function lends: static objects of C. Where a function is translated, these are a part of it."""
from mir import items, number, record, split, unknown
from shapes import BOOL, INTEGERS, SCALARS, UNIT, declared, is_union


def constant(width, value):
    """A number as text of C."""
    if "uint%d_t" % width not in INTEGERS or value >= 2 ** width:
        unknown("constant", {"Int": {"width": width, "value": value}})
    return "%du" % value if width < 32 else "UINT%d_C(%d)" % (width, value)


def numbers_of(form):
    """The numbers of an array, each with its width."""
    name, inside = split(form, "constant array", "Ints/1 Parts/1 Repeat/2")
    if name == "Ints":
        width, values = record(inside[0], "constant array", "width values")
        return [(number(width), number(one)) for one in items(values)]
    if name == "Repeat":
        return [number_of(inside[0])] * number(inside[1])
    return [number_of(one) for one in items(inside[0])]


def number_of(form):
    _, (inside,) = split(form, "constant number", "Int/1")
    return tuple(map(number, record(inside, "number", "width value")))


class Constants:
    def on_LendStatic(self, place, form, value):
        """A constant in memory, and a reference to it. The cast takes the const away that the MIR's type of the reference has."""
        to, local = self.place_to_set(place)
        c_type = self.types.seen(form)
        if to.c_type != self.types.pointer(c_type):
            unknown("static for a " + to.c_type, form)
        if c_type == UNIT:
            return
        name = "s%d" % len(self.statics)
        if c_type in SCALARS or c_type in self.types.arrays:
            self.statics.append("static const uint8_t %s[%d] = { %s };" % (name, self.types.size(c_type), self.bytes_of(value, c_type)))
            self.say(self.setting(to, "(uint8_t *)" + name), local)
        else:
            self.statics.append("static const %s = %s;" % (declared(c_type, name), self.initial(value, c_type)))
            self.say(self.setting(to, "(%s)&%s" % (to.c_type, name)), local)

    def bytes_of(self, form, c_type):
        """The bytes of a number, a bool or an array."""
        if c_type == BOOL:
            return "%du" % self.truth(form)
        element, count = self.types.arrays.get(c_type, (c_type, 1))
        numbers = numbers_of(form) if c_type in self.types.arrays else [number_of(form)]
        if len(numbers) != count or any(width != INTEGERS.get(element) for width, _ in numbers):
            unknown("constant for a " + c_type, form)
        return ", ".join("BYTES%d(%s)" % (width, constant(width, value)) for width, value in numbers)

    def truth(self, form):
        _, (truth,) = split(form, "constant bool", "Bool/1")
        return truth if isinstance(truth, bool) else unknown("constant bool", form)

    def initial(self, form, c_type):
        """What a static object or a part of it begins with."""
        if c_type in self.types.arrays:
            return "{ { %s } }" % self.bytes_of(form, c_type)
        if c_type == BOOL:
            return "true" if self.truth(form) else "false"
        if c_type in SCALARS:
            width, value = number_of(form)
            return constant(width, value) if "uint%d_t" % width == c_type else unknown("constant for a " + c_type, form)
        values = items(split(form, "constant", "Parts/1")[1][0])
        of, shape = c_type, "{ %s }"
        if is_union(c_type):
            _, tag = number_of(values[0])
            of, shape = "%s.v%d" % (c_type, tag), "{ .v%d = { %%s } }" % tag
        fields = self.types.fields_of(of)
        if not fields or len(fields) != len(values):
            unknown("constant for a " + c_type, form)
        given = [(name, t, self.initial(value, t)) for value, (name, t) in zip(values, fields) if t != UNIT]
        return shape % ", ".join(self.field(of, *one) for one in given)
