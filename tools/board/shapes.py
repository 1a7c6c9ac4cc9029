"""The types of the MIR as types of C. A type is its C text, so that two types are one where their texts are.

    Int 8 .. Int 64     uint8_t .. uint64_t
    Bool, Unit          bool, void
    Ptr                 uint8_t *: memory is bytes
    Ref                 of a number, a bool or an array uint8_t *; of another type a pointer to it
    Struct "&[]"        struct slice of a pointer f0 and a length f1
    Array               struct arrayW_N of the bytes of N integers of W bits, or of N bools or arrays
    Named, Fields       struct of f0, f1 ..
    Named, Variants     union of v0, v1 .., each a struct of the tag f0 and the fields f1 ..

A type that holds nothing (a unit, a struct of no fields or of units, a reference to one) takes no room: it is void, and C has neither its fields,
its parameters nor its values. A named type with arguments has a number behind its name in C.
"""
import re

from mir import Unknown, items, name_of, number, parts, record, split, unknown, written

POINTER, BOOL, UNIT, BYTE, LENGTH, SLICE = "uint8_t *", "bool", "void", "uint8_t", "uint64_t", "struct slice"
INTEGERS = {"uint8_t": 8, "uint16_t": 16, "uint32_t": 32, "uint64_t": 64}
SCALARS = {**INTEGERS, BOOL: 8}         # each with its bits in memory
PLAIN = {"Bool": BOOL, "Unit": UNIT, "Ptr": POINTER}
IN_BYTES = ("Int", "Bool", "Array")     # the forms of types that are bytes in memory

# Types that the header declares, with the names of their fields.
OF_HEADER = {
    "port::NtkOutcome": ("struct ntk_outcome", ("answer", "further", "runs")),
    "port::reasons::NtkReason": ("struct ntk_reason", ("rule", "number")),
}

# What is said of a declared type: its name, its shape and its parameters, what changes no code, and what has to be so of one that is plain data.
DECLARED = "name shape type_params const_params lifetimes type_bounds is_tuple owns bounds is_cell"
PLAIN_DATA = [[], False]


def c_name(symbol):
    """A name of C. A tuple is named (,)."""
    if re.fullmatch(r"\(,+\)", symbol):
        return "tuple%d" % (len(symbol) - 1)
    return re.sub(r"\W", "_", symbol.replace("::", "_"), flags=re.ASCII)


def declared(c_type, name):
    return c_type + name if c_type.endswith("*") else c_type + " " + name


def is_union(c_type):
    return c_type.startswith("union ")


def numbered(types):
    return [("f%d" % i, t) for i, t in enumerate(types)]


def with_arguments(form, types, dicts=()):
    """A form with the arguments in place of the parameters, and with no word of lifetimes, which change no code."""
    if isinstance(form, list):
        return [with_arguments(one, types, dicts) for one in form]
    if not isinstance(form, dict):
        return form
    name = name_of(form)
    if name == "Param":
        return types[number(form[name])]
    if name == "Given":
        return dicts[number(form[name])]
    if name == "Ref":
        return {"Ref": ["Erased", *with_arguments(items(form[name], 3)[1:], types, dicts)]}
    if name == "Array":
        element, count = with_arguments(form[name], types, dicts)
        return {"Array": [element, {"Lit": length(count)}]}
    return {name: [] if name == "lifetimes" else with_arguments(inside, types, dicts) for name, inside in form.items()}


def spelled(form):
    """A type or a dictionary in a comment."""
    name, inside = name_of(form), form if isinstance(form, str) else form[name_of(form)]
    if name in ("Named", "Impl"):
        return (inside[0]["name"] if name == "Named" else inside[0]) + spelled_all(inside[1])
    if name == "Ref":
        return "&" + "mut " * (inside[1] == "Mut") + spelled(inside[2])
    if name == "Struct":
        return "%s[]" % spelled(inside[1][0])
    if name == "Array":
        return "[%s; %s]" % (spelled(inside[0]), spelled(inside[1]))
    return {"Int": "u%s" % inside, "Bool": "bool", "Unit": "()", "Ptr": "*"}.get(name, str(inside))


def spelled_all(forms):
    return "<%s>" % ", ".join(map(spelled, forms)) if forms else ""


class Types:
    def __init__(self, addressed=()):
        self.shapes = {}    # of each declared name what the MIR says of it
        self.fields = {}    # of a struct its fields in order, each a name and a type; of a union a list of those of each variant
        self.arrays = {}    # of an array the type and the number of its elements
        self.names = {}     # of each named type with its arguments its C type
        self.within = []    # the named types that are being read
        self.lines = []     # the definitions of C, each behind those that it needs
        self.addressed = set(addressed)     # the numbers and bools in structs whose address is taken: each a struct and a name
        self.addressed_before = frozenset(addressed)    # those that are known to be when the structs are defined

    def learn(self, table):
        """Takes what is said of declared types. It is read where a type is used."""
        for entry in items(table):
            symbol = entry["name"]
            if self.shapes.setdefault(symbol, entry) != entry:
                raise Unknown("unknown which of two types has the name " + symbol)

    def read(self, form):
        """The C type of a type, which is defined."""
        name, inside = split(form, "type", "Int/1 Bool/0 Unit/0 Ptr/0 Ref/3 Array/2 Struct/2 Named/2")
        if name == "Array":
            return self.whole(self.seen(form))
        if name == "Struct":
            return self.slice(form, *inside)
        return self.named(*inside) if name == "Named" else self.seen(form)

    def seen(self, form):
        """The C type of what a pointer leads to: an array there is not defined, since its bytes are no struct of C."""
        name = name_of(form)
        if name == "Int":
            c_type = "uint%s_t" % form["Int"]
            return c_type if c_type in INTEGERS else unknown("type", form)
        if name == "Array":
            element, count = self.seen(form["Array"][0]), length(form["Array"][1])
            return self.array(element, count)
        if name == "Ref":
            return self.pointer(self.seen(items(form["Ref"], 3)[2]))
        return PLAIN[name] if name in PLAIN else self.read(form)

    def pointer(self, c_type):
        """The type of a reference."""
        if c_type in SCALARS or c_type in self.arrays:
            return POINTER
        return c_type if c_type == UNIT else declared(c_type, "*")

    def size(self, c_type):
        """How many bytes a value takes in memory."""
        if c_type in self.arrays:
            element, count = self.arrays[c_type]
            return count * self.size(element)
        return SCALARS[c_type] // 8 if c_type in SCALARS else unknown("size of a", c_type)

    def define(self, c_type, fields, lines):
        if c_type not in self.fields:
            self.fields[c_type] = fields
            self.lines += ["%s {" % c_type] + ["    " + line for line in lines] + ["};"]
        return c_type

    def slice(self, form, name, fields):
        pointer, count = items(fields, 2) if name == "&[]" else unknown("type", form)
        of = parts(pointer, "pointer of a slice", "Ref/3")[2]
        if name_of(of) not in IN_BYTES or (self.seen(pointer), self.seen(count)) != (POINTER, LENGTH):
            unknown("type", form)
        return self.define(SLICE, numbered([POINTER, LENGTH]), ["uint8_t *f0;", "uint64_t f1;"])

    def array(self, element, count):
        if element not in SCALARS and element not in self.arrays or count == 0:
            unknown("array of", element if count else "nothing")
        c_type = "struct array%s_%d" % (INTEGERS.get(element, element.split("array")[-1]), count)
        self.arrays[c_type] = (element, count)
        return c_type

    def whole(self, c_type):
        """An array that is a value."""
        return self.define(c_type, None, ["uint8_t at[%d];" % self.size(c_type)])

    def named(self, whole, arguments):
        symbol, _ = record(whole, "name of a type", "name lifetimes")
        key = written([symbol, with_arguments(arguments, [])])
        if symbol not in self.shapes or key in self.within:
            unknown("type", symbol)
        if key not in self.names:
            self.within.append(key)
            self.names[key] = self.made(symbol, items(arguments))
            self.within.pop()
        return self.names[key]

    def made(self, symbol, arguments):
        """The C type of a named type that is met for the first time."""
        _, shape, count, const_params, *_, bounds, is_cell = record(self.shapes[symbol], "declaration of a type", DECLARED)
        if [bounds, is_cell] != PLAIN_DATA:
            unknown("declaration of a type", self.shapes[symbol])
        consts = [i for i, given in enumerate(arguments) if name_of(given) == "Const"]
        if len(arguments) != count or consts != [i for i, _ in const_params]:
            unknown("arguments of", symbol)
        kind, (shape,) = split(with_arguments(shape, arguments), "shape of a type", "Fields/1 Variants/1")
        if kind == "Variants":
            fields = [numbered([BYTE] + [self.read(t) for t in items(v)]) for v in items(shape)]
            return self.union(self.unique("union", symbol, arguments), fields or unknown("enum of no variants", symbol))
        types = [self.read(t) for t in items(shape)]
        if symbol in OF_HEADER:
            c_type, names = OF_HEADER[symbol]
            self.fields[c_type] = list(zip(names, types))
            return c_type
        if all(t == UNIT for t in types):
            return UNIT
        c_type = self.unique("struct", symbol, arguments)
        return self.define(c_type, numbered(types), [self.field(c_type, *field) for field in numbered(types) if field[1] != UNIT])

    def unique(self, kind, symbol, arguments):
        """A name that no other type has."""
        c_type = "%s %s" % (kind, c_name(symbol))
        if arguments:
            c_type += "_%d" % (1 + sum(one.startswith(written([symbol])[:-1] + ",") for one in self.names))
            self.lines.append("/* %s%s */" % (symbol, spelled_all(arguments)))
        if c_type in self.fields:
            raise Unknown("two types that have one name in C: " + c_type)
        return c_type

    def union(self, c_type, variants):
        lines = ["struct { %s } v%d;" % (" ".join(self.field("%s.v%d" % (c_type, i), *one) for one in v if one[1] != UNIT), i)
                 for i, v in enumerate(variants)]
        return self.define(c_type, variants, lines)

    def field(self, owner, name, c_type):
        """The declaration of a field. A number or a bool that has an address is its bytes."""
        if self.has_address(owner, name, c_type):
            return "uint8_t %s[%d];" % (name, self.size(c_type))
        return "%s;" % declared(c_type, name)

    def fields_of(self, c_type):
        """The fields of a struct, or of the variant v of a union, which is named union.v."""
        union, _, variant = c_type.partition(".v")
        fields = self.fields.get(union)
        return fields[int(variant)] if variant else None if is_union(union) else fields

    def lend(self, owner, name):
        """Takes that a number or a bool in a struct has an address."""
        if owner in [c_type for c_type, _ in OF_HEADER.values()]:
            unknown("address in a type of the header", owner)
        self.addressed.add((owner, name))

    def has_address(self, owner, name, c_type):
        return c_type in SCALARS and (owner, name) in self.addressed_before


def length(form):
    """The length of an array."""
    name, (count,) = split(form, "length of an array", "Lit/1 Const/1")
    return number(count)
