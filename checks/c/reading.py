"""A second reader of the text that `c` writes: pycparser's grammar, and what C99 says of what it finds, each value checked to lie in its type."""
import re

from pycparser import c_ast, c_parser

BITS = {"int": 32, "int32_t": 32, "long long": 64, "int64_t": 64}


class Fault(Exception):
    """C doesn't define it."""


def fits(value, bits, why):
    if not -(2 ** (bits - 1)) <= value < 2 ** (bits - 1):
        raise Fault(f"{why}: {value} is not in {bits} bits")
    return value


def parsed(source):
    """The functions of a source, by their names' ends."""
    text = re.sub(r"INT64_C\((\d+)\)", r"\1LL", source)
    text = "typedef int int32_t;\ntypedef long long int64_t;\n" + re.sub(r"^#.*$", "", text, flags=re.M)
    return {item.decl.name: item for item in c_parser.CParser().parse(text).ext if isinstance(item, c_ast.FuncDef)}


class Run:
    """One call of a function: its arrays by name, and what its variables hold, with their bits."""

    def __init__(self, arrays):
        self.arrays, self.held = arrays, {}

    def value(self, e):
        """The value of an expression, and its type's bits."""
        if isinstance(e, c_ast.Constant):
            bits = 64 if e.type == "long long int" else 32
            return fits(int(e.value.rstrip("L")), bits, "a literal"), bits
        if isinstance(e, c_ast.ID):
            return self.held[e.name]
        if isinstance(e, c_ast.ArrayRef):
            values, bits = self.arrays[e.name.name]
            return values[self.value(e.subscript)[0]], bits
        if isinstance(e, c_ast.Cast):
            bits = BITS[" ".join(e.to_type.type.type.names)]
            return fits(self.value(e.expr)[0], bits, "a cast"), bits
        if isinstance(e, c_ast.UnaryOp) and e.op == "-":
            value, bits = self.value(e.expr)
            return fits(-value, bits, "a negation"), bits
        return self.operation(e)

    def operation(self, e):
        (a, m), (b, n) = self.value(e.left), self.value(e.right)
        if e.op in ("<", ">", "||"):
            return int({"<": a < b, ">": a > b, "||": bool(a or b)}[e.op]), 32
        if e.op == ">>":
            if not 0 <= b < m:
                raise Fault(f"a shift by {b} of {m} bits")
            return a >> b, m
        bits = max(m, n)
        if e.op in "/%":
            quotient = abs(a) // abs(b) * (1 if (a < 0) == (b < 0) else -1)
            return fits(quotient if e.op == "/" else a - quotient * b, bits, "a quotient"), bits
        return fits({"+": a + b, "-": a - b, "*": a * b}[e.op], bits, f"a result of {e.op}"), bits

    def store(self, target, value):
        if isinstance(target, c_ast.ArrayRef):
            values, bits = self.arrays[target.name.name]
            values[self.value(target.subscript)[0]] = fits(value, bits, "an array's number")
        else:
            bits = self.held[target.name][1]
            self.held[target.name] = fits(value, bits, target.name), bits

    def do(self, s):
        """What a statement returns, None where it goes on."""
        if isinstance(s, c_ast.Compound):
            for item in s.block_items or []:
                found = self.do(item)
                if found is not None:
                    return found
        elif isinstance(s, c_ast.Decl):
            bits = BITS[" ".join(s.type.type.names)]
            self.held[s.name] = fits(self.value(s.init)[0], bits, s.name), bits
        elif isinstance(s, c_ast.Assignment):
            self.store(s.lvalue, self.value(s.rvalue)[0])
        elif isinstance(s, c_ast.If):
            return self.do(s.iftrue) if self.value(s.cond)[0] else None
        elif isinstance(s, c_ast.Return):
            return self.value(s.expr)[0]
        elif isinstance(s, c_ast.For):
            self.do(s.init.decls[0])
            while self.value(s.cond)[0]:
                self.do(s.stmt)
                value, bits = self.value(s.next.expr)
                self.held[s.next.expr.name] = value + 1, bits
        else:
            raise Fault(f"no statement of this text: {type(s).__name__}")
        return None


def solved(functions, name, state, entries, inputs):
    """What the first function answers of a state, and the sums and averages where that is 0."""
    sums, averages = [0] * entries, [0] * inputs
    found = Run({"state": (state, 32), "sums": (sums, 64)}).do(functions[name + "_solve"].body)
    if found:
        return found, [], []
    Run({"sums": (sums, 64), "inputs": (averages, 64)}).do(functions[name + "_first_inputs"].body)
    return 0, sums, averages
