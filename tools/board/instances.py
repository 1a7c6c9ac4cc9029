"""The functions of a program and their instances. A generic function says `Param` n for a type or a number and `Given` n for a bound's dictionary;
an instance is the function with its arguments put there. A dictionary names an impl, and the impl its methods, so each call has one function."""
import json

from function import Function
from mir import Unknown, items, name_of, number, parts, record, split, unknown, written
from shapes import spelled_all, with_arguments

OF_GENERICS = "types outlives bounds method_of trait_lifetimes impls"
OF_IMPL = "name lifetimes outlives types type_outlives bounds of methods"


def within(symbol, work):
    """Does some work on a function: what goes wrong names it."""
    try:
        return work()
    except Unknown as problem:
        raise Unknown("%s: %s" % (symbol, problem)) from None
    except (AttributeError, IndexError, KeyError, TypeError, ValueError) as problem:
        raise Unknown("%s: unknown use of a form: %r" % (symbol, problem)) from None


class Program:
    def __init__(self, definitions, types):
        self.types, self.items, self.impls = types, {}, {}
        self.instances, self.names = {}, {}     # by their keys; and how many instances have a name
        for symbol, item in definitions:
            if symbol in self.items:
                raise Unknown("two functions of the name " + symbol)
            self.items[symbol] = item
            within(symbol, lambda: self.learn(item))

    def learn(self, item):
        """Takes what a function says of types and of impls, which another may speak of."""
        self.types.learn(item["types"])
        for impl in items(item["generics"]["impls"]):
            name, *_ = record(impl, "impl", OF_IMPL)
            if self.impls.setdefault(name, impl) != impl:
                raise Unknown("unknown which of two impls has the name " + name)

    def exported(self):
        """The keys of the functions that C calls. They have no parameters."""
        return [self.key(symbol, [], []) for symbol in self.items if Function.is_exported(symbol)]

    def key(self, symbol, types, dicts):
        """The key of an instance, which is made if it is new."""
        return self.know((symbol, written(with_arguments(types, [])), written(with_arguments(dicts, []))))

    def know(self, key):
        symbol, types, dicts = key[0], *map(json.loads, key[1:])
        if key not in self.instances:
            if symbol not in self.items:
                unknown("callee", symbol)
            self.instances[key] = within(symbol, lambda: self.instance(key, self.items[symbol], types, dicts))
        return key

    def instance(self, key, item, types, dicts):
        symbol, generics = key[0], item["generics"]
        spends = " spends_self" * (isinstance(generics, dict) and "spends_self" in generics)
        parameters, _, bounds, method_of, *_ = record(generics, "part of a function", OF_GENERICS + spends)
        if method_of is not None:
            parts(method_of, "part of a function", "Impl/2")
        self.check(symbol, items(parameters), types, items(bounds), dicts)
        if types or dicts:
            item = {**item, **{part: with_arguments(item[part], types, dicts) for part in ("locals", "body")}}
        return Function(symbol, item, self, key, spelled_all(types or dicts))

    def name(self, name, arguments):
        """The C name of a function. An instance with arguments has a number behind it."""
        if not arguments:
            return name
        self.names[name] = self.names.get(name, 0) + 1
        return "%s_%d" % (name, self.names[name])

    def check(self, symbol, parameters, types, bounds, dicts):
        """Each parameter has an argument of its kind, and each bound a dictionary of its trait."""
        if len(types) != len(parameters) or len(dicts) != len(bounds):
            unknown("number of arguments for", symbol)
        for parameter, given in zip(parameters, types):
            _, is_kept, bits = record(parameter, "parameter", "is_copy is_kept const_bits")
            if is_kept or (bits is None) == (name_of(given) == "Const") or (bits is not None and number(given["Const"]) >= 2 ** bits):
                unknown("argument for %s" % symbol, given)
        for bound, given in zip(bounds, dicts):
            if self.impl(given)["of"]["of"] != bound["of"]:
                unknown("dictionary for %s" % symbol, given)

    def impl(self, given):
        name, _, _ = parts(given, "dictionary", "Impl/3")
        return self.impls.get(name) or unknown("impl", name)

    def callee(self, form):
        """The key of what is called."""
        name, inside = split(form, "callee", "Fn/2 Method/3")
        if name == "Method":
            given, place, (types, dicts) = inside[0], number(inside[1]), record(inside[2], "arguments", "types dicts")
            impl, (_, of_types, of_dicts) = self.impl(given), given["Impl"]
            return self.key(items(impl["methods"])[place], of_types + types, of_dicts + dicts)
        return self.key(inside[0], *record(inside[1], "arguments", "types dicts"))
