"""Random models, input files and scenarios, valid ones and ones with some changed tokens."""
import itertools
import re

SPLIT = re.compile(r"\s+|:=|->|!=|<=|>=|\.\.|\$?\w+|.")
KEPT = ("controlled", "out", "shared")
DYNAMIC = KEPT + ("monitored",)
DEFINED = ("static", "derived")
OTHER_TOKENS = (
    "Integer Boolean undef 1 true $x xx r_x XX while Real ( ) - 3000000000 $ @ /* // par skip or =".split()
    + ["1000000 * 1000000 * 10000000"]
)
# By class of token: what may stand in the place of one and is in no generated model, or in few.
STRANGERS = {
    "variable": ["$zz", "$p0", "$q0"],
    "number": ["0", "7", "2147483648"],
    "element": ["TA0", "ZZ", "UA0"],
    "domain": ["Integer", "Boolean", "Tn0", "Tr0", "Zz", "Tb", "Un0"],
    "rule": ["r_t0", "r_t1", "r_zz", "r_Mt"],
    "function": ["zz", "tf0", "tf1", "t_a", "uf0"],
}


class Generator:
    """Makes the files of one case. What is declared so far, with imported files, is kept by name."""

    def __init__(self, random):
        self.random = random
        self.domains = {"Boolean": ("Boolean", ["true", "false"])}  # a type and constants of the elements
        self.functions, self.rules = {}, {}  # a kind, domains and a codomain; the domains of parameters
        self.named, self.callable = [], []  # the functions and rules that may be named where a tree is made

    def pick(self, items):
        return self.random.choice(list(items))

    def likely(self, chance):
        return self.random.random() < chance

    # ---- models

    def model(self, name, imports=(), is_asm=True):
        declarations, definitions = [], []
        self.declare_domains(name, declarations, definitions)
        own = [self.declare_function(f"{name}f{number}", declarations) for number in range(self.random.randint(1, 5))]
        self.random.shuffle(declarations)
        for function in own:
            self.define(function, definitions)
        self.named = list(self.functions)
        for number in range(self.random.randint(0, 2)):
            self.declare_rule(f"r_{name}{number}", definitions)
        if self.likely(0.3):
            definitions.append(self.invariant(name))
        self.random.shuffle(definitions)
        self.named, self.callable = list(self.functions), list(self.rules)
        main = f"main rule r_M{name} = {self.rule([], 3)}"
        separator = self.pick([" ", "\n"])
        head = "".join(f"import {one}\n" for one in imports)
        text = (
            f"{'asm' if is_asm else 'module'} {name}\n{head}signature:\n{separator.join(declarations)}\n"
            f"definitions:\n{separator.join(definitions)}\n"
        )
        return text + (f"{main}\ndefault init s0:\n{separator.join(self.initial_values())}\n" if is_asm else "")

    def declare_domains(self, name, declarations, definitions):
        front = name.upper()[0]
        for number in range(self.random.randint(0, 2)):
            domain, elements = f"{front}n{number}", [f"{front}{letter}{number}" for letter in "ABC"[: self.random.randint(1, 3)]]
            declarations.append(f"enum domain {domain} = {{{self.pick([' | ', ', ']).join(elements)}}}")
            self.domains[domain] = domain, elements
        for number in range(self.random.randint(0, 2)):
            domain = f"{front}r{number}"
            declarations.append(f"domain {domain} subsetof Integer")
            if self.likely(0.6):
                least = self.random.randint(-2, 2)
                numbers = range(least, least + self.random.randint(0, 3) + 1)
                definitions.append(f"domain {domain} = {{{numbers[0]}{self.pick([':', '..'])}{numbers[-1]}}}")
            else:
                numbers = self.random.sample(range(-3, 6), self.random.randint(1, 4))
                definitions.append(f"domain {domain} = {{{', '.join(map(str, numbers))}}}")
            self.domains[domain] = "Integer", list(map(str, numbers))
        if self.likely(0.4):
            domain, elements = f"{front}b", [f"{name}_{letter}" for letter in "abc"[: self.random.randint(1, 3)]]
            declarations += [f"abstract domain {domain}", *(f"static {element} : {domain}" for element in elements)]
            self.domains[domain] = domain, elements

    def declare_function(self, name, declarations):
        kind = self.pick(["controlled"] * 3 + ["out", "shared"] + ["monitored"] * 2 + ["static"] + ["derived"] * 2)
        domains = [self.pick(self.domains) for _ in range(self.pick([0, 0, 0, 1, 1, 2]))]
        codomain = "Integer" if kind in DEFINED and self.likely(0.25) else self.pick(self.domains)
        if kind == "static" and not domains and codomain.endswith("b"):
            kind = "derived"
        front = f"Prod({', '.join(domains)}) -> " if len(domains) > 1 else "".join(f"{domain} -> " for domain in domains)
        word = self.pick(["", "dynamic "]) if kind in DYNAMIC else ""
        declarations.append(f"{word}{kind} {name} : {front}{codomain}")
        self.functions[name] = kind, domains, codomain
        return name

    def define(self, name, definitions):
        kind, domains, codomain = self.functions[name]
        if kind not in DEFINED:
            return
        order = list(self.functions)
        earlier = [one for one in order if order.index(one) < order.index(name) or self.functions[one][0] not in DEFINED]
        self.named = [one for one in earlier if kind == "derived" or self.functions[one][0] == "static"]
        variables = [(f"$p{place}", domain) for place, domain in enumerate(domains)]
        definitions.append(f"function {name}{self.parameters(variables)} = {self.term(self.type_of(codomain), variables, 2)}")

    def declare_rule(self, name, definitions):
        variables = [(f"$q{place}", self.pick([*self.domains, "Integer"])) for place in range(self.random.randint(0, 2))]
        self.callable = list(self.rules)
        body = self.rule(variables, 2)
        self.rules[name] = [domain for _, domain in variables]
        definitions.append(f"{self.pick(['', 'macro '])}rule {name}{self.parameters(variables)} = {body}")

    def invariant(self, name):
        self.named = [one for one in self.functions if self.functions[one][0] not in ("monitored", "derived")]
        head = f"invariant {self.pick(['', f'inv_{name}'])} over {self.pick(self.functions)}"
        return f"{head} : {self.pick(['true or ', ''])}{self.term('Boolean', [], 1)}"

    def initial_values(self):
        values = []
        for name, (kind, domains, codomain) in self.functions.items():
            if kind in KEPT and self.likely(0.75):
                self.named = [one for one in self.functions if self.functions[one][0] == "static"]
                variables = [(f"$p{place}", domain) for place, domain in enumerate(domains)]
                value = self.term(self.type_of(codomain), variables, 1) if self.likely(0.4) else self.constant(codomain)
                values.append(f"function {name}{self.parameters(variables)} = {value}")
        self.named = list(self.functions)
        return values

    @staticmethod
    def parameters(variables):
        return f"({', '.join(f'{variable} in {domain}' for variable, domain in variables)})" if variables else ""

    def type_of(self, domain):
        return "Integer" if domain == "Integer" else self.domains[domain][0]

    def any_type(self):
        return self.type_of(self.pick([*self.domains, "Integer"]))

    def constant(self, domain):
        return str(self.random.randint(0, 5)) if domain == "Integer" else self.pick(self.domains[domain][1])

    # ---- terms of a type; variables have a domain or a type

    def term(self, wanted, variables, depth):
        fitting = [variable for variable, domain in variables if wanted == (self.type_of(domain) if domain in self.domains else domain)]
        if fitting and self.likely(0.5):
            return self.pick(fitting)
        named = [name for name in self.named if self.type_of(self.functions[name][2]) == wanted]
        if named and self.likely(0.45):
            return self.application(self.pick(named), variables, depth)
        if self.likely(0.04):
            return "undef"
        if depth <= 0 or self.likely(0.2):
            return self.literal(wanted)
        kind = self.random.random()
        if kind < 0.24:
            return self.branching(wanted, variables, depth - 1, kind)
        if wanted == "Integer":
            return self.arithmetic(variables, depth - 1)
        return self.truth(variables, depth - 1) if wanted == "Boolean" else self.literal(wanted)

    def literal(self, wanted):
        if wanted == "Integer":
            return self.pick([str(self.random.randint(0, 4)), str(self.random.randint(0, 4)), f"-{self.random.randint(0, 3)}"])
        return self.pick(self.domains[wanted][1])

    def application(self, name, variables, depth):
        _, domains, _ = self.functions[name]
        arguments = [self.term(self.type_of(domain), variables, depth - 1) if depth > 0 else self.constant(domain) for domain in domains]
        return f"{name}({', '.join(arguments)})" if arguments else name

    def branching(self, wanted, variables, depth, kind):
        def inner(type_name, known=variables):
            return self.term(type_name, known, depth)

        if kind < 0.1:
            otherwise = self.pick(["", f" else {inner(wanted)}", f" else {inner(wanted)}"])
            return f"if {inner('Boolean')} then {inner(wanted)}{otherwise} endif"
        other = self.any_type()
        if kind < 0.16:
            cases = " ".join(f"case {inner(other)} : {inner(wanted)}" for _ in range(self.random.randint(1, 2)))
            return f"switch {inner(other)} {cases}{self.pick(['', f' otherwise {inner(wanted)}'])} endswitch"
        variable = f"$l{self.random.randint(0, 2)}"
        known = [(one, domain) for one, domain in variables if one != variable] + [(variable, other)]
        return f"let ({variable} = {inner(other)}) in {inner(wanted, known)} endlet"

    def arithmetic(self, variables, depth):
        operator = self.pick("+ - * mod idiv min max abs neg plus minus mult call".split())
        first, second = self.term("Integer", variables, depth), self.term("Integer", variables, depth if self.likely(0.7) else 0)
        if operator in ("+", "-", "*", "mod"):
            return f"({first}) {operator} ({second})" if self.likely(0.6) else f"{first} {operator} {second}"
        if operator == "neg":
            return f"-({first})"
        if operator == "abs" or operator == "minus" and self.likely(0.4):
            return f"{operator}({first})"
        return f"{'mod' if operator == 'call' else operator}({first}, {second})"

    def truth(self, variables, depth):
        kind = self.pick("and or xor implies iff not compare equal equal isDef isUndef quantifier quantifier call".split())

        def inner(type_name):
            return self.term(type_name, variables, depth)

        if kind == "quantifier":
            binders, known = self.binders("$k", variables, 4)
            guard = self.pick(["", f" with {self.term('Boolean', known, depth)}", f" with {self.term('Boolean', known, depth)}"])
            return f"({self.pick(['forall', 'exist', 'exist unique'])} {binders}{guard})"
        if kind in ("isDef", "isUndef"):
            return f"{kind}({inner(self.any_type())})"
        if kind == "not":
            return f"not ({inner('Boolean')})"
        if kind == "compare":
            first, second = inner("Integer"), inner("Integer")
            if self.likely(0.6):
                return f"({first}) {self.pick(['<', '<=', '>', '>='])} ({second})"
            return f"{self.pick(['lt', 'le', 'gt', 'ge'])}({first}, {second})"
        if kind == "equal":
            other = self.any_type()
            return f"({inner(other)}) {self.pick(['=', '!='])} ({inner(other)})"
        first, second = inner("Boolean"), inner("Boolean")
        if kind == "call":
            return f"{self.pick(['and', 'or', 'xor', 'iff', 'implies'])}({first}, {second})"
        return f"{first} {kind} {second}" if self.likely(0.4) else f"({first}) {kind} ({second})"

    def binders(self, front, variables, names):
        """One or two binders of different variables, and the variables that are known behind them."""
        chosen = self.random.sample([f"{front}{number}" for number in range(names)], self.random.randint(1, 2))
        bound = [(variable, self.pick(self.domains)) for variable in chosen]
        known = [(variable, domain) for variable, domain in variables if variable not in chosen] + bound
        return ", ".join(f"{variable} in {domain}" for variable, domain in bound), known

    # ---- rules

    def update(self, variables):
        kept = [name for name in self.functions if self.functions[name][0] in KEPT]
        if not kept:
            return "skip"
        name = self.pick(kept)
        _, domains, codomain = self.functions[name]
        arguments = [self.term(self.type_of(domain), variables, 1) if self.likely(0.6) else self.constant(domain) for domain in domains]
        value = self.term(self.type_of(codomain), variables, 2) if self.likely(0.6) else self.constant(codomain)
        return f"{name}{'(' + ', '.join(arguments) + ')' if arguments else ''} := {value}"

    def rule(self, variables, depth):
        if depth <= 0 or self.likely(0.2):
            return self.update(variables) if self.likely(0.9) else "skip"
        kind = self.pick("par par seq if if switch let forall forall choose call update".split())

        def inner(known=variables):
            return self.rule(known, depth - 1)

        if kind in ("par", "seq"):
            return f"{kind} {' '.join(inner() for _ in range(self.random.randint(1, 3)))} end{kind}"
        if kind == "if":
            return f"if {self.term('Boolean', variables, 1)} then {inner()}{self.pick(['', f' else {inner()}'])} endif"
        if kind == "switch":
            other = self.any_type()
            cases = " ".join(f"case {self.term(other, variables, 0)} : {inner()}" for _ in range(self.random.randint(1, 3)))
            return f"switch {self.term(other, variables, 1)} {cases}{self.pick(['', f' otherwise {inner()}'])} endswitch"
        if kind == "let":
            return self.let_rule(variables, depth)
        if kind in ("forall", "choose"):
            binders, known = self.binders("$z", variables, 4)
            guard = self.pick(["", f" with {self.term('Boolean', known, 1)}"])
            body = inner(known)
            otherwise = self.pick(["", f" ifnone {inner()}"]) if kind == "choose" and "choose" not in body else ""
            return f"{kind} {binders}{guard} do {body}{otherwise}"
        if kind == "call" and self.callable:
            name = self.pick(self.callable)
            return f"{name}[{', '.join(self.term(self.type_of(domain), variables, 1) for domain in self.rules[name])}]"
        return self.update(variables)

    def let_rule(self, variables, depth):
        known, bindings = list(variables), []
        for number in range(self.random.randint(1, 2)):
            variable, other = f"$m{number}", self.any_type()
            bindings.append(f"{variable} = {self.term(other, known, 1)}")
            known = [(one, domain) for one, domain in known if one != variable] + [(variable, other)]
        return f"let ({', '.join(bindings)}) in {self.rule(known, depth - 1)} endlet"

    # ---- inputs and scenarios

    def setting(self, name, arguments):
        _, _, codomain = self.functions[name]
        return f"set {name}{'(' + ', '.join(arguments) + ')' if arguments else ''} := {self.constant(codomain)};"

    def some_settings(self):
        settings = []
        for name, (kind, domains, _) in self.functions.items():
            if kind in ("monitored", "shared"):
                for _ in range(self.random.randint(0, 3)):
                    settings.append(self.setting(name, [self.constant(domain) for domain in domains]))
        self.random.shuffle(settings)
        return settings

    def full_settings(self):
        """One setting for each monitored location."""
        return [
            self.setting(name, arguments)
            for name, (kind, domains, _) in self.functions.items()
            if kind == "monitored"
            for arguments in itertools.product(*(self.domains[domain][1] for domain in domains))
        ]

    def inputs(self):
        steps = []
        for _ in range(self.random.randint(0, 4)):
            settings = self.full_settings() if self.likely(0.7) else []
            steps.append(" ".join(settings + self.some_settings()) + self.pick([" step", " step;"]) + "\n")
        return "".join(steps)

    def command(self, blocks):
        kind = self.pick("set step step until check check exec execblock".split())
        if kind == "set":
            return " ".join((self.full_settings() if self.likely(0.5) else []) + self.some_settings())
        if kind == "until":
            return f"step until {self.term('Boolean', [], 1)};"
        if kind == "check":
            return f"check {self.pick(['true or ', '', '', 'isDef(1) or '])}{self.term('Boolean', [], 1)};"
        if kind == "exec":
            self.callable = list(self.rules)
            return f"exec {self.rule([], 2)};"
        if kind == "execblock" and blocks:
            return f"execblock {self.pick(blocks)};"
        return self.pick(["step", "step;"])

    def scenario(self, load):
        commands, blocks = [], []
        if self.likely(0.7):
            commands.append(" ".join(self.full_settings()))
        for _ in range(self.random.randint(1, 7)):
            if self.likely(0.2):
                name = f"b{self.random.randint(0, 2)}"
                inner = " ".join(self.command(blocks) for _ in range(self.random.randint(0, 3)))
                commands.append(f"begin {name} {inner} end")
                blocks.append(name)
            else:
                commands.append(self.command(blocks))
        return f"scenario s\nload {load}\n" + "\n".join(commands) + "\n"


# ---- changed tokens

def mutate(random, text):
    """The text with one or two tokens left out, doubled or replaced, or cut."""
    tokens = SPLIT.findall(text)
    places = [place for place, token in enumerate(tokens) if token.strip()]
    for _ in range(random.choice([1, 1, 1, 2]) if places else 0):
        place, kind = random.choice(places), random.random()
        token = tokens[place]
        if kind < 0.25:
            tokens[place] = ""
        elif kind < 0.4:
            tokens[place] = f"{token} {token}"
        elif kind < 0.75:
            alike = [tokens[other] for other in places if tokens[other] != token and token_class(tokens[other]) == token_class(token)]
            tokens[place] = random.choice(alike or [tokens[other] for other in places])
        elif kind < 0.87:
            tokens[place] = tokens[random.choice(places)]
        elif kind < 0.97:
            tokens[place] = random.choice(OTHER_TOKENS)
        else:
            return "".join(tokens[:place])
    return "".join(tokens)


def token_class(token):
    if token[:1] == "$":
        return "variable"
    if token[:1].isdigit():
        return "number"
    if re.fullmatch("[A-Z][A-Z0-9_]+", token):
        return "element"
    if token[:1].isupper():
        return "domain"
    if token.startswith("r_"):
        return "rule"
    return "function" if token[:1].islower() else token


def rename(random, text, reserved):
    """The text with one to four names, numbers or variables in the places of others of their class, so that it mostly parses."""
    tokens, places = SPLIT.findall(text), {}
    for place, token in enumerate(tokens):
        if token not in reserved and token_class(token) in STRANGERS:
            places.setdefault(token_class(token), []).append(place)
    for _ in range(random.randint(1, 4)):
        kind = random.choice(sorted(places))
        tokens[random.choice(places[kind])] = random.choice([tokens[place] for place in places[kind]] + STRANGERS[kind])
    kinds = [place for place, token in enumerate(tokens) if token in DYNAMIC + DEFINED]
    if kinds and random.random() < 0.4:
        tokens[random.choice(kinds)] = random.choice(["static", "derived", "monitored", "controlled"])
    text = "".join(tokens)
    return text.replace("dynamic static", "static").replace("dynamic derived", "derived")
