"""Tokens, trees and the grammar of models, input files and scenarios, written from the description of the language alone."""
import re
from dataclasses import dataclass, field

RESERVED = set(
    "asm module import export signature definitions enum domain abstract subsetof dynamic static derived controlled "
    "monitored shared out function macro rule main default init invariant over Prod skip par endpar seq endseq if then "
    "else endif switch case otherwise endswitch let in endlet forall exist unique with do choose ifnone true false undef "
    "not and or xor implies iff mod idiv eq neq lt le gt ge plus minus mult isDef isUndef min max abs".split()
)
UNSUPPORTED = set(
    "Real Natural Complex String Char Seq Bag Map Powerset Rule Agent Any anydomain basic while recwhile iterate turbo "
    "extend local axiom agent self program CTLSPEC LTLSPEC INVAR JUSTICE COMPASSION pick".split()
)
OF_SCENARIOS = set("scenario load set step until check exec begin end execblock".split())
GREATEST_NUMBER = 2 ** 31
LONG_SYMBOLS = [":=", "->", "!=", "<=", ">=", ".."]
SYMBOLS = "{}()[],:;=<>+-*/.|"
# How many operands an operator takes in the form of a call; `minus` has one or two.
OPERANDS = {
    **dict.fromkeys("iff implies or xor and eq neq lt le gt ge plus mult mod idiv min max".split(), (2,)),
    **dict.fromkeys(["abs", "isDef", "isUndef"], (1,)),
    "minus": (1, 2),
}
INFIX = {
    1: {"iff": "iff"},
    2: {"implies": "implies"},
    3: {"or": "or", "xor": "xor"},
    4: {"and": "and"},
    6: {"=": "eq", "!=": "neq", "<": "lt", "<=": "le", ">": "gt", ">=": "ge"},
    7: {"+": "plus", "-": "minus"},
    8: {"*": "mult", "mod": "mod"},
}


class Fault(Exception):
    """What is wrong with a file, as the line that is printed."""

    def __init__(self, line):
        super().__init__(line)
        self.line = line


@dataclass
class Token:
    kind: str  # word, variable, number or symbol
    text: str
    at: int
    value: int = 0


@dataclass
class Tree:
    """A term or a rule: its kind, its first token, and its parts by name."""

    kind: str
    first: Token
    parts: dict = field(default_factory=dict)

    def __getattr__(self, name):
        try:
            return self.parts[name]
        except KeyError:
            raise AttributeError(name) from None


@dataclass
class Unit:
    is_asm: bool
    name: Token
    imports: list
    declarations: list = field(default_factory=list)
    definitions: list = field(default_factory=list)
    main: tuple = None
    init: tuple = None


def spot(text, at):
    """The line and the column of a place."""
    before = text[:at]
    return f"{before.count(chr(10)) + 1}:{at - (before.rfind(chr(10)) + 1) + 1}"


def is_letter(char):
    return "a" <= char <= "z" or "A" <= char <= "Z"


def is_digit(char):
    return "0" <= char <= "9"


def run_of(text, at, test):
    while at < len(text) and test(text[at]):
        at += 1
    return at


def in_name(char):
    return is_letter(char) or is_digit(char) or char == "_"


def lex(text, name):
    """The tokens of a text, or the fault of the first place where there is none."""
    tokens, at = [], 0

    def refuse(place, why):
        raise Fault(f"{name}:{spot(text, place)}: {why}")

    while at < len(text):
        char = text[at]
        if char in " \t\r\n":
            at += 1
        elif text.startswith("//", at):
            end = text.find("\n", at)
            at = len(text) if end < 0 else end
        elif text.startswith("/*", at):
            end = text.find("*/", at + 2)
            if end < 0:
                refuse(at, "comment not closed")
            at = end + 2
        elif is_letter(char):
            end = run_of(text, at, in_name)
            tokens.append(Token("word", text[at:end], at))
            at = end
        elif char == "$" and at + 1 < len(text) and is_letter(text[at + 1]):
            end = run_of(text, at + 1, in_name)
            tokens.append(Token("variable", text[at:end], at))
            at = end
        elif is_digit(char):
            end = run_of(text, at, is_digit)
            if int(text[at:end]) > GREATEST_NUMBER:
                refuse(at, "number too big")
            tokens.append(Token("number", text[at:end], at, int(text[at:end])))
            at = end
        elif text[at : at + 2] in LONG_SYMBOLS:
            tokens.append(Token("symbol", text[at : at + 2], at))
            at += 2
        elif char in SYMBOLS:
            tokens.append(Token("symbol", char, at))
            at += 1
        else:
            refuse(at, "unexpected byte")
    return tokens


class Parser:
    """Reads the tokens of one file."""

    def __init__(self, text, name, has_scenario_words=False):
        self.tokens, self.at = lex(text, name), 0
        self.text, self.name, self.has_scenario_words = text, name, has_scenario_words

    # ---- tokens

    def peek(self):
        return self.tokens[self.at] if self.at < len(self.tokens) else None

    def refuse(self):
        token = self.peek()
        if token is None:
            raise Fault(f"{self.name}:{spot(self.text, len(self.text))}: syntax error")
        if token.kind == "word" and token.text in UNSUPPORTED:
            raise Fault(f"{self.name}:{spot(self.text, token.at)}: not supported: {token.text}")
        raise Fault(f"{self.name}:{spot(self.text, token.at)}: syntax error")

    def sees(self, *texts):
        token = self.peek()
        return (
            token is not None
            and token.text in texts
            and (token.kind == "symbol" or token.kind == "word" and (token.text in RESERVED or token.text in OF_SCENARIOS))
        )

    def take(self):
        self.at += 1
        return self.tokens[self.at - 1]

    def eat(self, *texts):
        if not self.sees(*texts):
            self.refuse()
        return self.take()

    def skips(self, *texts):
        """Whether one of these comes, which is then taken."""
        if self.sees(*texts):
            self.at += 1
            return True
        return False

    def need(self, test):
        if self.peek() is None or not test(self.peek()):
            self.refuse()
        return self.take()

    def is_free(self, token):
        return (
            token is not None
            and token.kind == "word"
            and token.text not in RESERVED
            and token.text not in UNSUPPORTED
            and not (self.has_scenario_words and token.text in OF_SCENARIOS)
        )

    def is_domain(self, token):
        return self.is_free(token) and token.text[0].isupper()

    def is_element(self, token):
        return self.is_domain(token) and re.fullmatch("[A-Z0-9_]{2,}", token.text) is not None

    def is_rule(self, token):
        return self.is_free(token) and token.text.startswith("r_")

    def is_invariant(self, token):
        return self.is_free(token) and token.text.startswith("inv_")

    def is_function(self, token):
        return self.is_free(token) and token.text[0].islower() and not self.is_rule(token) and not self.is_invariant(token)

    def word(self):
        return self.need(lambda token: token.kind == "word")

    def variable(self):
        return self.need(lambda token: token.kind == "variable")

    def listed(self, item):
        items = [item()]
        while self.skips(","):
            items.append(item())
        return items

    def integer(self):
        first = self.peek()
        sign = -1 if self.skips("-") else 1
        return sign * self.need(lambda token: token.kind == "number").value, first

    def binders(self):
        def binder():
            variable = self.variable()
            self.eat("in")
            return variable, self.need(self.is_domain)

        return self.listed(binder)

    def parameters(self):
        if not self.skips("("):
            return []
        binders = self.binders()
        self.eat(")")
        return binders

    def path(self):
        parts = []
        while True:
            if self.sees(".", ".."):
                parts.append(self.take().text)
            else:
                part = self.word().text
                if self.skips("."):
                    part += "." + self.word().text
                parts.append(part)
            if not self.skips("/"):
                return "/".join(parts)

    # ---- whole files

    def unit(self):
        is_asm = self.eat("asm", "module").text == "asm"
        unit = Unit(is_asm, self.word(), [])
        while self.skips("import"):
            unit.imports.append(self.path())
        if self.skips("export") and not self.skips("*"):
            self.listed(self.word)
        self.eat("signature")
        self.eat(":")
        while self.sees("enum", "domain", "abstract", "dynamic", "controlled", "monitored", "shared", "out", "static", "derived"):
            unit.declarations.append(self.declaration())
        self.eat("definitions")
        self.eat(":")
        while self.sees("domain", "function", "macro", "rule", "invariant"):
            unit.definitions.append(self.definition())
        if is_asm and self.skips("main"):
            self.skips("macro")
            self.eat("rule")
            name = self.need(self.is_rule)
            self.eat("=")
            unit.main = name, self.rule()
        if is_asm and self.skips("default"):
            self.eat("init")
            name = self.word()
            self.eat(":")
            unit.init = name, []
            while self.skips("function"):
                unit.init[1].append(self.function())
        self.end()
        return unit

    def end(self):
        if self.peek() is not None:
            self.refuse()

    def declaration(self):
        if self.skips("enum"):
            self.eat("domain")
            domain = self.need(self.is_domain)
            self.eat("=")
            self.eat("{")
            elements = [self.need(self.is_element)]
            while self.skips("|", ","):
                elements.append(self.need(self.is_element))
            self.eat("}")
            return "enum", domain, elements
        if self.skips("domain"):
            domain = self.need(self.is_domain)
            self.eat("subsetof")
            return "range", domain, self.need(self.is_domain)
        if self.skips("abstract"):
            self.eat("domain")
            return "abstract", self.need(self.is_domain)
        if self.skips("dynamic") and not self.sees("controlled", "monitored", "shared", "out"):
            self.refuse()
        kind = self.take().text
        name = self.need(self.is_function)
        self.eat(":")
        if self.skips("Prod"):
            self.eat("(")
            domains = self.listed(lambda: self.need(self.is_domain))
            self.eat(")")
            self.eat("->")
            return "function", kind, name, domains, self.need(self.is_domain)
        domain = self.need(self.is_domain)
        if self.skips("->"):
            return "function", kind, name, [domain], self.need(self.is_domain)
        return "function", kind, name, [], domain

    def definition(self):
        if self.skips("domain"):
            domain = self.need(self.is_domain)
            self.eat("=")
            self.eat("{")
            numbers = [self.integer()]
            if self.skips("..", ":"):
                found = "numbers", domain, numbers[0], self.integer()
            else:
                while self.skips(","):
                    numbers.append(self.integer())
                found = "list", domain, numbers
            self.eat("}")
            return found
        if self.skips("function"):
            return ("function", *self.function())
        if self.skips("invariant"):
            first = self.tokens[self.at - 1]
            name = self.take() if self.is_invariant(self.peek()) else None
            self.eat("over")
            over = self.listed(lambda: self.need(self.is_free))
            self.eat(":")
            return "invariant", first, name, over, self.term()
        self.skips("macro")
        self.eat("rule")
        name, parameters = self.need(self.is_rule), self.parameters()
        self.eat("=")
        return "rule", name, parameters, self.rule()

    def function(self):
        name, parameters = self.need(self.is_function), self.parameters()
        self.eat("=")
        return name, parameters, self.term()

    # ---- rules

    def rule(self):
        first = self.peek()
        if self.skips("skip"):
            return Tree("skip", first)
        if self.sees("par", "seq"):
            kind = self.take().text
            parts = [self.rule()]
            while not self.skips("end" + kind):
                parts.append(self.rule())
            return Tree(kind, first, {"rules": parts})
        if self.sees("if"):
            return self.conditional(self.rule, Tree("skip", first))
        if self.sees("switch"):
            return self.switch(self.rule, Tree("skip", first))
        if self.sees("let"):
            return self.let(self.rule)
        if self.sees("forall", "choose"):
            kind, binders = self.take().text, self.binders()
            guard = self.term() if self.skips("with") else None
            self.eat("do")
            body = self.rule()
            otherwise = self.rule() if kind == "choose" and self.skips("ifnone") else Tree("skip", first)
            return Tree(kind, first, {"binders": binders, "guard": guard, "body": body, "otherwise": otherwise})
        if self.is_rule(first):
            self.take()
            self.eat("[")
            arguments = [] if self.sees("]") else self.listed(self.term)
            self.eat("]")
            return Tree("call", first, {"name": first, "arguments": arguments})
        self.need(self.is_function)
        arguments = self.arguments()
        self.eat(":=")
        return Tree("update", first, {"name": first, "arguments": arguments, "value": self.term()})

    def arguments(self):
        if not self.skips("("):
            return []
        arguments = self.listed(self.term)
        self.eat(")")
        return arguments

    def conditional(self, read, without):
        first = self.eat("if")
        guard = self.term()
        self.eat("then")
        then = read()
        otherwise = read() if self.skips("else") else without
        self.eat("endif")
        return Tree("if", first, {"guard": guard, "then": then, "otherwise": otherwise})

    def switch(self, read, without):
        first = self.eat("switch")
        value, cases = self.term(), []
        self.eat("case")
        while True:
            case = self.term()
            self.eat(":")
            cases.append((case, read()))
            if not self.skips("case"):
                break
        otherwise = read() if self.skips("otherwise") else without
        self.eat("endswitch")
        return Tree("switch", first, {"value": value, "cases": cases, "otherwise": otherwise})

    def let(self, read):
        first = self.eat("let")
        self.eat("(")

        def binding():
            variable = self.variable()
            self.eat("=")
            return variable, self.term()

        bindings = self.listed(binding)
        self.eat(")")
        self.eat("in")
        body = read()
        self.eat("endlet")
        return Tree("let", first, {"bindings": bindings, "body": body})

    # ---- terms, each with the token that it stands at

    def term(self):
        return self.level(1)[0]

    def level(self, level):
        first = self.peek()
        if level == 5:
            if self.skips("not"):
                return Tree("operator", first, {"operator": "not", "arguments": [self.level(5)[0]]}), first
            return self.level(6)
        if level == 9:
            if self.skips("-"):
                return Tree("operator", first, {"operator": "negate", "arguments": [self.level(9)[0]]}), first
            return self.primary()
        left, first = self.level(level + 1)
        operators = INFIX[level]
        while self.sees(*operators):
            operator = operators[self.take().text]
            right = self.level(level if level == 2 else level + 1)[0]
            left = Tree("operator", first, {"operator": operator, "arguments": [left, right]})
            if level in (2, 6):
                break
        return left, first

    def primary(self):
        first = self.peek()
        if first is None:
            self.refuse()
        if first.kind == "number":
            return Tree("number", self.take(), {"value": first.value}), first
        if first.kind == "variable":
            return Tree("variable", self.take(), {"name": first.text}), first
        if self.sees("true", "false"):
            return Tree("truth", self.take(), {"value": first.text == "true"}), first
        if self.skips("undef"):
            return Tree("undef", first), first
        if self.skips("("):
            return self.in_parentheses(first), first
        if self.sees("if"):
            return self.conditional(self.term, Tree("undef", first)), first
        if self.sees("switch"):
            return self.switch(self.term, Tree("undef", first)), first
        if self.sees("let"):
            return self.let(self.term), first
        if self.sees(*OPERANDS):
            return self.operator_call(), first
        if self.is_function(first):
            self.take()
            return Tree("apply", first, {"name": first, "arguments": self.arguments()}), first
        return Tree("element", self.need(self.is_element), {"name": first.text}), first

    def in_parentheses(self, first):
        if not self.sees("forall", "exist"):
            term = self.term()
            self.eat(")")
            return term
        quantifier = self.take().text
        if quantifier == "exist" and self.skips("unique"):
            quantifier = "exist unique"
        binders = self.binders()
        guard = self.term() if self.skips("with") else None
        self.eat(")")
        return Tree("quantifier", first, {"quantifier": quantifier, "binders": binders, "guard": guard})

    def operator_call(self):
        first = self.take()
        counts = OPERANDS[first.text]
        self.eat("(")
        arguments = [self.term()]
        if 2 in counts and (1 not in counts or self.sees(",")):
            self.eat(",")
            arguments.append(self.term())
        self.eat(")")
        operator = "negate" if first.text == "minus" and len(arguments) == 1 else first.text
        return Tree("operator", first, {"operator": operator, "arguments": arguments})

    # ---- input files and scenarios

    def constant(self):
        token = self.peek()
        if self.sees("true", "false"):
            return "truth", self.take().text == "true"
        if self.sees("-") or token is not None and token.kind == "number":
            return "number", self.integer()[0]
        return "name", self.need(lambda other: self.is_element(other) or self.is_function(other)).text

    def setting(self):
        self.eat("set")
        function, arguments = self.need(self.is_function), []
        if self.skips("("):
            arguments = self.listed(self.constant)
            self.eat(")")
        self.eat(":=")
        value = self.constant()
        self.eat(";")
        return function, arguments, value

    def inputs(self):
        steps = []
        while self.peek() is not None:
            settings = []
            while self.sees("set"):
                settings.append(self.setting())
            self.eat("step")
            self.skips(";")
            steps.append(settings)
        return steps

    def scenario(self):
        self.eat("scenario")
        self.word()
        self.eat("load")
        path, commands = self.path(), []
        while self.peek() is not None:
            if self.skips("begin"):
                name, block = self.need(self.is_free), []
                while not self.skips("end"):
                    block.append(self.command())
                commands.append(("block", name, block))
            else:
                commands.append(self.command())
        return path, commands

    def command(self):
        if self.sees("set"):
            return "set", self.setting()
        if self.skips("step"):
            if not self.skips("until"):
                self.skips(";")
                return ("step",)
            found = "until", self.term()
        elif self.skips("check"):
            found = "check", self.term()
        elif self.skips("exec"):
            found = "exec", self.rule()
        else:
            self.eat("execblock")
            found = "execblock", self.need(self.is_free)
        self.eat(";")
        return found
