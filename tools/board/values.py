"""Places, operands and what is computed of them, as text of C. Where a function is translated, these are a part of it."""
from constants import constant
from mir import items, name_of, number, parts, record, split, unknown
from shapes import BOOL, INTEGERS, LENGTH, POINTER, SCALARS, UNIT, is_union, length

OPERATORS = {"Add": "+", "WrapAdd": "+", "Sub": "-", "WrapSub": "-", "Mul": "*", "WrapMul": "*", "Div": "/", "Rem": "%", "And": "&", "Or": "|",
             "Xor": "^", "Shl": "<<", "Shr": ">>"}
COMPARISONS = {"Lt": "<", "Le": "<=", "Eq": "==", "Ne": "!="}
OPERATIONS = "Add/1 WrapAdd/0 Sub/1 WrapSub/0 Mul/1 WrapMul/0 Div/1 Rem/1 Shl/0 Shr/1 Lt/1 Le/1 Eq/0 Ne/0 And/0 Or/0 Xor/0 Offset/0"
OF_BOOLEANS = ("And", "Or", "Xor", "Eq", "Ne")


class Place:
    """Where a value is. `text` is its C text; of a number, a bool or an array that is bytes in memory it is a pointer to them. `lent` says that
    it may have an address, and `owner` what it is a field of, and by which name."""

    def __init__(self, text, c_type, in_bytes=False, lent=False, owner=None):
        self.text, self.c_type, self.in_bytes, self.lent, self.owner = text, c_type, in_bytes, lent, owner


class Values:

    # ---- places

    def place(self, form):
        """A place that is read."""
        root, steps = record(form, "place", "local steps")
        at = self.local(number(root))
        for step in items(steps):
            name, (what,) = split(step, "step of a place", "Deref/1 Field/1 Variant/1")
            at = getattr(self, "at_" + name)(at, what) or unknown("step at a " + at.c_type, step)
        if at.c_type != UNIT:
            self.reads.add(root)
        return at

    def local(self, i):
        return Place("v%d" % i, self.locals[i], self.slots[i] and self.locals[i] in SCALARS, self.slots[i])

    def at_Deref(self, at, form):
        c_type = self.types.seen(form)
        if c_type == UNIT and at.c_type in (UNIT, POINTER):
            return Place("", UNIT, lent=True)
        if at.c_type != self.types.pointer(c_type):
            return None
        if c_type in SCALARS or c_type in self.types.arrays:
            return Place(at.text, c_type, in_bytes=True, lent=True)
        return Place("*" + at.text, c_type, lent=True)

    def at_Variant(self, at, which):
        """The fields of a variant, with its tag before them. They are no place of their own."""
        variants = self.types.fields.get(at.c_type)
        if not is_union(at.c_type) or number(which) >= len(variants):
            return None
        return Place(member(at.text, "v%d" % which), "%s.v%d" % (at.c_type, which), lent=at.lent)

    def at_Field(self, at, which):
        if at.c_type == UNIT:
            return at
        fields = self.types.fields_of(at.c_type)
        if not fields or number(which) >= len(fields):
            return None
        name, c_type = fields[which]
        if c_type == UNIT:
            return Place("", UNIT, lent=at.lent)
        return Place(member(at.text, name), c_type, self.types.has_address(at.c_type, name, c_type), at.lent, (at.c_type, name))

    def value(self, at):
        """The text of the value at a place."""
        if not at.in_bytes:
            return at.text
        if at.c_type in self.types.arrays:
            return "*(%s *)%s" % (self.types.whole(at.c_type), at.text)
        return ("*%s" if at.c_type == "uint8_t" else "(bool)*%s" if at.c_type == BOOL else "load%d(%%s)" % INTEGERS[at.c_type]) % at.text

    def setting(self, at, text):
        """The line that puts a value there."""
        if not at.in_bytes:
            return "%s = %s;" % (at.text, text)
        if at.c_type in self.types.arrays:
            return "*(%s *)%s = %s;" % (self.types.whole(at.c_type), at.text, text)
        return ("*%s = %s;" if SCALARS[at.c_type] == 8 else "store%d(%%s, %%s);" % SCALARS[at.c_type]) % (at.text, text)

    def address(self, at):
        """The text of a reference to a place."""
        if at.in_bytes or at.c_type == UNIT:
            return at.text
        if at.c_type in self.types.arrays:
            return at.text + ".at"
        if at.c_type in SCALARS:    # from the next pass on it is bytes
            self.types.lend(*at.owner)
        return at.text[1:] if at.text.startswith("*") else "&" + at.text

    # ---- operands

    def typed(self, form):
        """An operand: its C text and its type."""
        name, inside = split(form, "operand", "Copy/1 Int/1 True/0 False/0 Unit/0 SizeOf/1 NumOf/2")
        if name == "Copy":
            at = self.place(inside[0])
            return self.value(at), at.c_type
        if name == "SizeOf":
            return constant(64, self.types.size(self.types.seen(inside[0]))), LENGTH
        if name == "NumOf":
            width, value = number(inside[0]), length(inside[1])
        elif name == "Int":
            width, value = map(number, record(inside[0], "number", "width value"))
        else:
            return ("", UNIT) if name == "Unit" else (name.lower(), BOOL)
        return constant(width, value), "uint%d_t" % width

    def operand(self, form, c_type):
        """The text of an operand that has to be of this type."""
        text, found = self.typed(form)
        return text if found == c_type else unknown("%s for a %s" % (found, c_type), form)

    # ---- what is assigned to a place of a type: its C text

    def rvalue(self, form, c_type):
        name, inside = split(form, "rvalue", "Opd/1 Op1/2 Op2/3 AddrOf/1 Aggregate/1 Repeat/2")
        if name == "Opd":
            return self.operand(inside[0], c_type)
        return getattr(self, "rvalue_" + name)(c_type, *inside)

    def rvalue_Op1(self, c_type, operation, form):
        name, inside = split(operation, "operation", "Not/0 Cast/3 LeadingZeros/0")
        text, found = self.typed(form)
        if name == "Not" and found == c_type == BOOL:
            return "!" + text
        if name == "LeadingZeros" and (found, c_type) == ("uint64_t", "uint32_t"):
            return "leading_zeros64(%s)" % text
        if name != "Cast" or inside[:2] != ["Unsigned", "Unsigned"] or INTEGERS.get(c_type) != number(inside[2]) or found not in SCALARS:
            unknown("operation from a %s to a %s" % (found, c_type), operation)
        return "(%s)%s" % (c_type, text)

    def rvalue_Op2(self, c_type, operation, left, right):
        name, sign = split(operation, "operation", OPERATIONS)
        if name == "Offset":
            return "%s + %s" % (self.operand(left, POINTER), self.operand(right, LENGTH)) if c_type == POINTER else unknown("offset for a", c_type)
        x, of = self.typed(left)
        y = self.operand(right, of)
        if sign == ["Signed"] and name in ("Lt", "Le") and of in INTEGERS:    # the numbers with the sign's bit turned are in the unsigned order
            x, y, sign = *("(%s ^ %s)" % (one, constant(INTEGERS[of], 1 << INTEGERS[of] - 1)) for one in (x, y)), []
        if sign not in ([], ["Unsigned"]) or of not in INTEGERS and not (of == BOOL and name in OF_BOOLEANS):
            unknown("operation on a " + of, operation)
        if c_type != (BOOL if name in COMPARISONS else of):
            unknown("operation for a " + c_type, operation)
        if name in COMPARISONS:
            return "%s %s %s" % (x, COMPARISONS[name], y)
        if INTEGERS.get(of, 32) < 32:   # by itself C would compute with a signed int
            return "(%s)((uint32_t)%s %s %s)" % (of, x, OPERATORS[name], y)
        return "%s %s %s" % (x, OPERATORS[name], y)

    def rvalue_AddrOf(self, c_type, form):
        at = self.place(form)
        if (at.c_type, c_type) == (UNIT, POINTER):  # nothing is read there
            return "NULL"
        return self.address(at) if at.lent and c_type == self.types.pointer(at.c_type) else unknown("address of a", at.c_type)

    def rvalue_Repeat(self, c_type, value, count):
        return self.array(c_type, [value] * length(count))

    def rvalue_Aggregate(self, c_type, values):
        items(values)
        if c_type in self.types.arrays:
            return self.array(c_type, values)
        of, shape = c_type, "(%s){ %s }"
        if is_union(c_type) and values:
            tag = number(record(parts(values[0], "tag", "Int/1")[0], "tag", "width value")[1])
            if tag >= len(self.types.fields[c_type]):
                unknown("variant of a " + c_type, values[0])
            of, shape = "%s.v%d" % (c_type, tag), "(%%s){ .v%d = { %%s } }" % tag
        fields = self.types.fields_of(of) if c_type != UNIT else [("", UNIT)] * len(values)
        if fields is None or len(fields) != len(values):
            unknown("aggregate for a", c_type)
        given = [(name, t, self.operand(value, t)) for value, (name, t) in zip(values, fields)]
        return shape % (c_type, ", ".join(".%s = %s" % (one[0], self.field(of, *one)) for one in given if one[1] != UNIT))

    def field(self, owner, name, c_type, text):
        """What a field begins with."""
        if not self.types.has_address(owner, name, c_type):
            return text
        return "{ %s }" % self.in_bytes(text, c_type)

    def array(self, c_type, values):
        element, count = self.types.arrays.get(c_type) or unknown("array for a", c_type)
        if len(values) != count:
            unknown("number of values for", c_type)
        return "(%s){ { %s } }" % (c_type, ", ".join(self.in_bytes(self.operand(value, element), element) for value in values))

    def in_bytes(self, text, c_type):
        """The bytes of a value, for what begins an array."""
        if c_type in SCALARS:
            return "BYTES%d(%s)" % (SCALARS[c_type], text)
        return ", ".join("%s.at[%d]" % (text, i) for i in range(self.types.size(c_type))) if text.isalnum() else unknown("bytes of", text)


def member(text, name):
    """A field of what is at a place."""
    if not text.startswith("*"):
        return "%s.%s" % (text, name)
    return ("(%s)->%s" if text[1:].startswith("*") else "%s->%s") % (text[1:], name)
