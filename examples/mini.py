#!/usr/bin/env python3
"""mini.py FILE: writes the Core of a program in a small language; mini.py --run FILE runs it by ./grinc, or what GRINC names.

A line of FILE is `def f(a, b): return E` or `print(E, ..)`, in the notation of Python. E is a number, a text, a name, a call,
A + B and the like with - * // %, A == B, A < B, or A if C else B. Calls are lazy, and // rounds towards zero."""
import ast, os, re, subprocess, sys, tempfile

PRIMITIVES = {ast.Add: "add", ast.Sub: "sub", ast.Mult: "mul", ast.FloorDiv: "quot", ast.Mod: "rem", ast.Eq: "eq", ast.Lt: "lt"}
ENDS = {3: "a function is used as a number", 4: "out of cells: raise --heap", 5: "too deep: raise --stack", 6: "it has not ended"}
LIBRARY = (
    "data Nil 0; data Cons 2; number n r = case lt n 0 of { 1 -> Cons 45 (digits (sub 0 n) r); _ -> digits n r };"
    " digits n r = case lt n 10 of { 1 -> Cons (add n 48) r; _ -> digits (quot n 10) (Cons (add (rem n 10) 48) r) };"
)


class Line:
    """The declarations that a line of the source becomes. They stand in one line too, so a place in Core has the source's line."""

    def __init__(self, number):
        self.number, self.made = number, []

    def declare(self, head, body):
        self.made.append(f"{head} = {body};")
        return head

    def atom(self, e, scope):
        text = self.app(e, scope)
        return f"({text})" if " " in text else text

    def app(self, e, scope):
        """An application. A choice can't stand in one, so it becomes a function of all that is in scope."""
        if isinstance(e, ast.Constant):
            return str(e.value)
        if isinstance(e, ast.Name):
            return f"v_{e.id}" if e.id in scope else f"f_{e.id}"
        if isinstance(e, ast.Call):
            return " ".join([self.atom(e.func, scope), *(self.atom(it, scope) for it in e.args)])
        if isinstance(e, ast.BinOp):
            return f"{PRIMITIVES[type(e.op)]} {self.atom(e.left, scope)} {self.atom(e.right, scope)}"
        if isinstance(e, ast.Compare):
            return f"{PRIMITIVES[type(e.ops[0])]} {self.atom(e.left, scope)} {self.atom(e.comparators[0], scope)}"
        no, yes = self.app(e.orelse, scope), self.app(e.body, scope)
        choice = f"case {self.app(e.test, scope)} of {{ 0 -> {no}; _ -> {yes} }}"
        return self.declare(" ".join([f"if{self.number}_{len(self.made)}", *(f"v_{it}" for it in scope)]), choice)

    def shown(self, e, rest):
        """What puts a value in front of the rest of the output: a text is a flat group of one cell a byte."""
        if not isinstance(e, ast.Constant) or isinstance(e.value, int):
            return f"number {self.atom(e, [])} {rest}"
        codes = [*e.value.encode()]
        tails = [*(f"t{i}" for i in range(1, len(codes))), "r"]
        binds = "; ".join(f"t{i} = Cons {code} {tail}" for i, (code, tail) in enumerate(zip(codes, tails)))
        head = self.declare(f"text{self.number}_{len(self.made)} r", f"let {binds} in t0" if codes else "r")
        return f"{head.split()[0]} {rest}"


def compiled(source):
    lines, shown = [], []
    for number, text in enumerate(source.splitlines(), 1):
        lines.append(Line(number))
        for it in ast.parse(text).body:
            if isinstance(it, ast.FunctionDef):
                scope = [arg.arg for arg in it.args.args]
                body = lines[-1].app(it.body[0].value, scope)
                lines[-1].declare(" ".join([f"f_{it.name}", *(f"v_{name}" for name in scope)]), body)
            else:
                end = [ast.Constant("\n")]
                shown += [lines[-1].shown(e, f"m{len(shown) + i + 1}") for i, e in enumerate(it.value.args + end)]
    binds = [f"m{i} = {text}" for i, text in enumerate(shown)]
    main = f"main = let {'; '.join(binds)}; m{len(shown)} = Nil in m0;"
    return "".join(" ".join(it.made) + "\n" for it in lines) + LIBRARY + " " + main + "\n"


def main(words):
    source = words[-1]
    core = compiled(open(source).read())
    if words[:-1] != ["--run"]:
        return print(core, end="")
    with tempfile.NamedTemporaryFile("w", suffix=".core") as file:
        file.write(core)
        file.flush()
        grinc = os.environ.get("GRINC") or f"{os.path.dirname(os.path.realpath(__file__))}/../grinc"
        ran = subprocess.run([grinc, "run", file.name], stderr=subprocess.PIPE, text=True)
    for line, column, rule, text in re.findall(r"^.*:(\d+):(\d+): (rule \d+|note): (.*)$", ran.stderr, re.M):
        word = re.match(r"(?:[fv]_)?(\w*)", core.splitlines()[int(line) - 1][int(column) - 1 :])[1]
        print(f"{source}:{line}: {word}: {text}", file=sys.stderr)
    if ran.returncode > 1:
        print(f"{source}: {ENDS.get(ran.returncode, ran.stderr.strip())}", file=sys.stderr)
    return ran.returncode


sys.exit(main(sys.argv[1:]))
