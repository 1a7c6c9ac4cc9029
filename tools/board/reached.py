"""reached.py MIR..: prints, of the functions in these files, those of `port` that C calls and all that they may reach, as one line of JSON. The first
part of a function's name is its crate, and a file that none of them is in is not read."""
import json
import re
import sys

EXPORTED = re.compile(r"port::(\w+::)*ntk_\w+")


def named(form, name):
    """The insides of all forms of a name that stand in a form."""
    if isinstance(form, dict):
        for one, inside in form.items():
            if one == name:
                yield inside
            yield from named(inside, name)
    elif isinstance(form, list):
        for one in form:
            yield from named(one, name)


def crate_of(file):
    """.. /NAME.rlib/toolchain/mir.json"""
    return file.split("/")[-3].removesuffix(".rlib")


class Reached:
    """What is called by its name is reached, and a method of an impl where some function has the impl and some function calls that method of the
    impl's trait. So a few are among them that no call comes to; which, is found where the functions are made for their arguments."""

    def __init__(self, files):
        self.files, self.read = files, {}
        self.impls, self.called = {}, set()     # the impls by their names; the methods that are called, each a trait and a place in it
        self.found = {}

    def of(self, crate):
        if crate not in self.read:
            if crate not in self.files:
                sys.exit("tools/board: no MIR of the crate " + crate)
            with open(self.files[crate], encoding="utf-8") as file:
                self.read[crate] = dict(json.load(file))
        return self.read[crate]

    def take(self, symbol):
        one = self.found[symbol] = self.of(symbol.split("::")[0]).get(symbol) or sys.exit("tools/board: no MIR of " + symbol)
        generics = one["generics"]
        self.impls.update((impl["name"], impl) for impl in generics["impls"])
        for whose, place, _ in named(one["body"], "Method"):
            traits = [generics["bounds"][n]["of"] for n in named(whose, "Given")] + [self.impls[name]["of"]["of"] for name, *_ in named(whose, "Impl")]
            self.called.update((trait, place) for trait in traits)
        return [symbol for symbol, *_ in named(one["body"], "Fn")]

    def methods(self):
        for impl in self.impls.values():
            for place, symbol in enumerate(impl["methods"]):
                if (impl["of"]["of"], place) in self.called:
                    yield symbol

    def all(self):
        wanted = [symbol for symbol in self.of("port") if EXPORTED.fullmatch(symbol)]
        while wanted:
            symbol = wanted.pop(0)
            if symbol not in self.found:
                wanted += self.take(symbol)
            if not wanted:
                wanted = [symbol for symbol in self.methods() if symbol not in self.found]
        return sorted(self.found.items())


if __name__ == "__main__":
    print(json.dumps(Reached({crate_of(file): file for file in sys.argv[1:]}).all(), separators=(",", ":")))
