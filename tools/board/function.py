"""One function of the MIR as one function of C, form by form. Its locals are v0, v1 ..: v0 is the result, then come the parameters."""
from constants import Constants
from fields import LOCAL, by_field
from mir import Unknown, items, name_of, number, record, split, tree, unknown
from shapes import BOOL, INTEGERS, SLICE, UNIT, c_name, declared
from values import Values

EXPORTED = "ntk_"   # how the last part of an exported function's name begins; the header declares it
RESULT = {"local": 0, "steps": []}
RESULT_IS_UNIT = {"Assign": [RESULT, {"Opd": "Unit"}]}
IDLE = ["Seq", "Skip", "Return", RESULT_IS_UNIT]
BLOCKS = ("block", "loop's block")
STATEMENTS = "Skip/0 Seq/2 Assign/2 Block/1 Loop/1 If/3 Switch/4 Exit/1 Return/0 Call/3 LendStatic/3 Unreachable/0"
OF_FUNCTION = "params locals body generics types lifetimes outlives"


class Function(Values, Constants):
    def __init__(self, symbol, item, program, key, arguments=""):
        """A function or, where `arguments` are named, an instance; `program` finds what it calls."""
        count, local_list, body, *_ = record(item, "function", OF_FUNCTION)
        self.words, self.body = body, tree(body)
        self.symbol, self.program, self.types, self.key, self.arguments = symbol, program, program.types, key, arguments
        self.exported = self.is_exported(symbol)
        self.name = symbol.split("::")[-1] if self.exported else program.name(c_name(symbol), arguments)
        self.forms = [record(local, "local", "ty home") for local in items(local_list)]
        self.slots = [split(home, "home of a local", "ValueLocal/0 MemorySlot/0")[0] == "MemorySlot" for _, home in self.forms]
        self.locals = [self.types.read(form) for form, _ in self.forms]
        self.parameters = range(1, 1 + number(count))
        if any(self.slots[i] for i in self.parameters):
            raise Unknown("unknown home of a parameter")
        self.given = [i for i in self.parameters if self.locals[i] != UNIT]     # those that take room
        self.lines, self.around = [], []    # the lines of the body; the ifs, switches, blocks and loops around the next one, each with its label
        self.statics = []                   # the constants that it lends
        self.reads = set()                  # the locals that the next line reads
        self.callees, self.restarts, self.labels = [], False, 0

    @staticmethod
    def is_exported(symbol):
        return symbol.split("::")[-1].startswith(EXPORTED)

    # ---- the whole

    def translate(self):
        """The lines of C."""
        self.statement(self.body)
        read = self.read()
        slices = ["    struct slice v%d = { %sp%d, n%d };" % (i, "(uint8_t *)" * self.is_const(i), i, i)
                  for i in self.given if self.is_lent(i)]
        unread = ["    (void)v%d;" % i for i in self.given if i not in read]
        body = [line if local in read else unread_line for line, local, unread_line, _ in self.lines]
        body = by_field([line for line in body if line], ["v%d" % i for i in self.parameters])
        named = set(LOCAL.findall("\n".join(body)))
        own = ["    %s;" % self.own(i) for i in sorted(read) if i not in self.parameters and self.locals[i] != UNIT and "v%d" % i in named]
        return (["/* %s%s */" % (self.symbol, self.arguments), self.signature(), "{"] + ["    " + one for one in self.statics] + slices + own + unread +
                ["start:"] * self.restarts + body + ["}"])

    def read(self):
        """The locals that are read by a line which is not left out."""
        read, more = set(), {0}
        while not more <= read:
            read |= more
            more = set().union(*(reads for _, local, unread_line, reads in self.lines if local in read or unread_line))
        return read

    def own(self, i):
        """The declaration of a local that is no parameter. A number or a bool that has an address is its bytes."""
        if self.local(i).in_bytes:
            return "uint8_t v%d[%d]" % (i, self.types.size(self.locals[i]))
        return declared(self.locals[i], "v%d" % i)

    def is_lent(self, i):
        """A slice that C lends to an exported function is two parameters there."""
        return self.exported and self.locals[i] == SLICE

    def is_const(self, i):
        _, (pointer, _) = self.forms[i][0]["Struct"]
        _, lent, of = pointer["Ref"]
        return lent == "Imm" if of == {"Int": 8} else unknown("slice lent by C, of", of)

    def signature(self):
        given = []
        for i in self.given:
            if self.is_lent(i):
                given += ["%suint8_t *p%d" % ("const " * self.is_const(i), i), "size_t n%d" % i]
            else:
                given += [declared(self.locals[i], "v%d" % i)]
        kind = "" if self.exported else "static inline " if self.arguments else "static "
        return "%s%s(%s)" % (kind, declared(self.locals[0], self.name), ", ".join(given) or "void")

    def say(self, text, local=0, unread=""):
        """A line; where it sets a local that nothing reads, what stands in its place."""
        indent = "    " * (1 + sum(what not in BLOCKS for what, _ in self.around))
        self.lines.append((indent + text, local, unread and indent + unread, self.reads))
        self.reads = set()

    def within(self, what, body):
        """The statements within an if, a switch, a block or a loop. Answers with the label that an exit jumps to, if one does."""
        self.around.append([what, None])
        self.statement(body)
        return self.around.pop()[1]

    # ---- statements

    def statement(self, form):
        self.reads = set()
        name, inside = split(form, "statement", STATEMENTS)
        if name == "Seq" and self.calls_itself_last(*inside):
            self.restart(items(inside[0]["Call"][1]))
        elif name != "Skip":
            getattr(self, "on_" + name)(*inside)

    def on_Seq(self, first, then):
        self.statement(first)
        self.statement(then)

    def on_Return(self):
        self.say("return;" if self.locals[0] == UNIT else "return v0;")

    def on_Unreachable(self):
        self.say("for (;;)")
        self.say("    ;   /* it is proved that nothing comes here */")

    def on_Assign(self, place, value):
        to, local = self.place_to_set(place)
        text = self.rvalue(value, to.c_type)
        if to.c_type != UNIT:
            self.say(self.setting(to, text), local)

    def on_If(self, on, yes, no):
        text = self.operand(on, BOOL)
        if yes == "Skip":
            text, yes, no = "!" + text, no, "Skip"
        self.say("if (%s) {" % text)
        self.within("if", yes)
        if no != "Skip":
            self.say("} else {")
            self.within("if", no)
        self.say("}")

    def on_Switch(self, on, keys, arms, default):
        text, c_type = self.typed(on)
        if c_type not in INTEGERS:
            unknown("switch on a", c_type)
        self.say("switch (%s) {" % text)
        for i, body in enumerate(arms + default):
            labels = ["case %du:" % number(key) for key in items(keys[i])] if i < len(arms) else []
            # Where the MIR has no default, the last arm takes what is left: it is proved that nothing is.
            self.say(" ".join(labels + ["default:"] * (i + 1 == len(arms + default))))
            self.within("switch", body)
            self.say("    break;")
        self.say("}")

    def on_Block(self, body):
        """What leaves a block goes on behind it."""
        label = self.within("loop's block" if name_of(body) == "Loop" else "block", body)
        if label:
            self.say(label + ":;")

    def on_Loop(self, body):
        """What leaves a loop begins it again, as its end does."""
        self.say("for (;;) {")
        label = self.within("loop", body)
        if label:
            self.say("    %s:;" % label)
        self.say("}")

    def on_Exit(self, count):
        """Exit 0 leaves the inmost block or loop, Exit 1 the one around it. Where a break or a continue of C does just that, it is one."""
        ways = [i for i, (what, _) in enumerate(self.around) if what in BLOCKS + ("loop",)]
        if number(count) >= len(ways):
            unknown("exit within %s" % (" ".join(what for what, _ in self.around if what in ("loop", "switch")) or "no loop"), {"Exit": count})
        to = ways[-1 - count]
        what, *inside = [what for what, _ in self.around[to:] if what not in ("if", "block")] or ["block"]
        if (what, inside) == ("loop's block", ["loop"]):
            self.say("break;")
        elif what == "loop" and "loop" not in inside:
            self.say("continue;")
        else:
            self.say("goto %s;" % self.label(to))

    def label(self, place):
        """The label of something around, which is put there."""
        what, label = self.around[place]
        if label is None:
            self.labels += 1
            label = self.around[place][1] = ("next%d" if what == "loop" else "left%d") % self.labels
        return label

    def on_Call(self, whom, arguments, place):
        key = self.program.callee(whom)
        callee = self.program.instances[key]
        if callee.exported:
            unknown("callee", callee.symbol)
        to, local = self.place_to_set(place)
        if callee.locals[0] != to.c_type:
            unknown("call for a " + to.c_type, callee.symbol)
        if callee.is_idle():
            return
        self.callees.append(key)
        call = "%s(%s)" % (callee.name, ", ".join(self.arguments_for(callee, items(arguments))))
        if to.c_type == UNIT:
            self.say(call + ";")
        else:
            self.say(self.setting(to, call), local, "(void)" + call + ";")

    def is_idle(self):
        """An instance that does nothing, as the drop of a type that owns nothing: no call of it is made."""
        return bool(self.arguments) and all(word in IDLE for word in self.words)

    def arguments_for(self, callee, arguments):
        if len(arguments) != len(callee.parameters):
            unknown("number of arguments for", callee.symbol)
        texts = [(i, self.operand(given, callee.locals[i])) for i, given in zip(callee.parameters, arguments)]
        return [text for i, text in texts if i in callee.given]

    def calls_itself_last(self, first, then):
        """A call of this function itself behind which it returns. C does not bound the stack there, so it becomes a jump to the start. No
        address of a local may be lent to it."""
        if name_of(first) != "Call" or self.program.callee(first["Call"][0]) != self.key:
            return False
        returns = ["Return"] if first["Call"][2] == RESULT else []
        if self.locals[0] == UNIT:
            returns = ["Return", {"Seq": [RESULT_IS_UNIT, "Return"]}]
        return then in returns and not any(self.slots) and not any(t in self.types.arrays for t in self.locals)

    def restart(self, arguments):
        """All arguments are read before a parameter is set."""
        self.restarts = True
        self.say("{")
        for i, text in zip(self.given, self.arguments_for(self, arguments)):
            self.say("    %s = %s;" % (declared(self.locals[i], "a%d" % i), text))
        for i in self.given:
            self.say("    v%d = a%d;" % (i, i), i)
        self.say("    goto start;")
        self.say("}")

    def place_to_set(self, form):
        """A place that is set; and the local that is set whole, if it is one: if nothing reads it, the line is left out."""
        root, steps = record(form, "place", "local steps")
        return (self.place(form), 0) if items(steps) else (self.local(number(root)), root)
