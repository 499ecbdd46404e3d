"""The files of a model and the eight passes of the check, each as the set of all its faults, of which the first is told."""
from syntax import Fault, Parser, spot

KINDS = [
    "declared twice", "unknown name", "wrong kind", "wrong number of arguments", "wrong type", "unbound variable",
    "empty domain", "domain too large", "too many locations", "no definition", "no main rule", "no default init",
    "defined by itself", "calls too deep", "forbidden read", "range too wide",
]
KEPT = ("controlled", "out", "shared")
DYNAMIC = KEPT + ("monitored",)
DEFINED = ("static", "derived")
ARITHMETIC = ("plus", "minus", "mult", "mod", "idiv", "min", "max", "negate", "abs")
CONNECTIVES = ("iff", "implies", "or", "xor", "and", "not")
MOST_ELEMENTS, MOST_LOCATIONS, MOST_ARGUMENTS, MOST_CALLS, MOST_FILES = 256, 4096, 4, 32, 64
MOST_BYTES = 262144
GREATEST_BOUND = 2 ** 62
INTEGERS = (-(2 ** 31), 2 ** 31)


# ---- files

def normal(name):
    """A name without empty parts, `.`, and parts that `..` takes away."""
    found = []
    for place, part in enumerate(name.split("/")):
        if part == "." or part == "" and place > 0:
            continue
        if part == ".." and found and found[-1] != "..":
            found.pop()
        else:
            found.append(part)
    return "/".join(found)


def beside(name, path):
    """The file that a path in the file of a name means."""
    folder = name.rsplit("/", 1)[0] + "/" if "/" in name else ""
    found = normal(folder + path)
    return found if "." in found.split("/")[-1] else found + ".asm"


def is_library(path):
    return path.split("/")[-1].removesuffix(".asm") in ("StandardLibrary", "CTLLibrary")


def load(files, name, sources):
    """The units of a model in load order, each with the number of its file."""
    units, done, open_files = [], set(), []

    def read(name):
        if name in open_files:
            raise Fault(f"{name}: import cycle")
        if name in done:
            return
        if len(done) + len(open_files) >= MOST_FILES:
            raise Fault(f"{name}: too many files")
        if name not in files:
            raise Fault(f"{name}: no such file")
        if len(files[name]) > MOST_BYTES:
            raise Fault(f"{name}: too long")
        number = len(sources)
        sources.append((name, files[name]))
        open_files.append(name)
        unit = Parser(files[name], name).unit()
        for path in unit.imports:
            if not is_library(path):
                read(beside(name, path))
        open_files.remove(name)
        done.add(name)
        units.append((unit, number))

    read(normal(name))
    return units


# ---- what a checked model is

class Domain:
    def __init__(self, kind, name=None, unit=0, base=None, elements=None):
        self.kind, self.name, self.unit, self.base = kind, name, unit, base
        self.elements, self.size = elements, None


class Function:
    def __init__(self, kind, name, unit, domains, codomain, is_constant):
        self.kind, self.name, self.unit = kind, name, unit
        self.domains, self.codomain, self.is_constant = domains, codomain, is_constant


class Rule:
    def __init__(self, name, unit, parameters, body, file):
        self.name, self.unit, self.parameters, self.body, self.file = name, unit, parameters, body, file


class Definition:
    def __init__(self, name, unit, parameters, body):
        self.name, self.unit, self.parameters, self.body = name, unit, parameters, body


class Checker:
    """A model's units, and what the passes find in them."""

    def __init__(self, units, sources):
        self.units, self.sources, self.faults, self.unit = units, sources, [], 0
        self.names = {"Boolean": ("domain", "Boolean"), "Integer": ("domain", "Integer")}
        self.domains, self.functions, self.rules = {}, {}, {}
        self.definitions, self.initial, self.invariants = {}, {}, []
        self.locations = 0

    def fault(self, kind, unit, token):
        self.faults.append((unit, token.at, KINDS.index(kind), token.text))

    def tell(self):
        """Tells the first fault of the pass, if there is any."""
        if self.faults:
            unit, at, kind, text = min(self.faults, key=lambda fault: fault[:3])
            name, source = self.sources[self.units[unit][1]]
            raise Fault(f"{name}:{spot(source, at)}: {KINDS[kind]}: {text}")

    def check(self):
        for check in (
            self.check_names, self.check_domains, self.check_functions, self.check_bodies, self.check_missing,
            self.check_calls, self.check_reads, self.check_ranges,
        ):
            check()
            self.tell()
        return self

    def all_of(self, part):
        """Each declaration or definition with the number of its unit."""
        for number, (unit, _) in enumerate(self.units):
            for item in getattr(unit, part):
                yield number, item

    @property
    def last(self):
        return self.units[-1][0]

    @property
    def main(self):
        return self.rules[self.last.main[0].text]

    def counts(self):
        declared = [domain for domain in self.domains.values() if domain.kind != "truths"]
        return (
            f"ok: {len(declared)} domains, {len(self.functions)} functions, {len(self.rules)} rules, "
            f"{len(self.invariants)} invariants, {self.locations} locations"
        )

    # ---- names

    def check_names(self):
        def declare(unit, token, what):
            if token.text in self.names:
                self.fault("declared twice", unit, token)
            else:
                self.names[token.text] = what

        for number, (unit, _) in enumerate(self.units):
            for declaration in unit.declarations:
                if declaration[0] == "function":
                    declare(number, declaration[2], ("function", declaration[2].text))
                    continue
                declare(number, declaration[1], ("domain", declaration[1].text))
                for element in declaration[2] if declaration[0] == "enum" else []:
                    declare(number, element, ("element", declaration[1].text))
            for definition in unit.definitions:
                if definition[0] == "rule":
                    declare(number, definition[1], ("rule", definition[1].text))
                elif definition[0] == "invariant" and definition[2] is not None:
                    declare(number, definition[2], ("invariant", definition[2].text))
            if unit is self.last and unit.main:
                declare(number, unit.main[0], ("rule", unit.main[0].text))

    # ---- domains

    def check_domains(self):
        for number, declaration in self.all_of("declarations"):
            kind = declaration[0]
            if kind == "function":
                continue
            name = declaration[1]
            base = declaration[2] if kind == "range" else None
            elements = {"enum": lambda: [(name.text, element.text) for element in declaration[2]], "abstract": list, "range": lambda: None}
            self.domains[name.text] = Domain(kind, name, number, base, elements[kind]())
        for _, declaration in self.all_of("declarations"):
            if declaration[0] == "function" and self.is_constant(declaration):
                self.domains[declaration[4].text].elements.append((declaration[4].text, declaration[2].text))
        defined = set()
        for number, definition in self.all_of("definitions"):
            if definition[0] in ("numbers", "list"):
                self.check_numbers(number, definition, defined)
        for name, domain in self.domains.items():
            self.check_domain(name, domain, defined)
        self.domains["Boolean"] = Domain("truths", elements=[False, True])

    def is_constant(self, declaration):
        _, kind, _, domains, codomain = declaration
        return kind == "static" and not domains and codomain.text in self.domains and self.domains[codomain.text].kind == "abstract"

    def check_numbers(self, unit, definition, defined):
        name = definition[1]
        domain = self.domains.get(name.text)
        if name.text in ("Boolean", "Integer"):
            self.fault("wrong kind", unit, name)
        elif domain is None:
            self.fault("unknown name", unit, name)
        elif domain.kind != "range":
            self.fault("wrong kind", unit, name)
        is_first = name.text not in defined
        if not is_first:
            self.fault("declared twice", unit, name)
        defined.add(name.text)
        if definition[0] == "numbers":
            least, greatest = definition[2][0], definition[3][0]
            size = max(0, greatest - least + 1)
            elements = list(range(least, min(greatest, least + MOST_ELEMENTS) + 1))
        else:
            elements = [number for number, _ in definition[2]]
            size = len(elements)
            for place, (number, token) in enumerate(definition[2]):
                if number in elements[:place]:
                    self.fault("declared twice", unit, token)
        if domain is not None and domain.kind == "range" and is_first:
            domain.size, domain.elements = size, elements

    def check_domain(self, name, domain, defined):
        if domain.kind == "range":
            if domain.base.text != "Integer":
                self.fault("wrong kind", domain.unit, domain.base)
            if name not in defined:
                self.fault("no definition", domain.unit, domain.name)
                return
        size = domain.size if domain.kind == "range" else len(domain.elements)
        if size == 0:
            self.fault("empty domain", domain.unit, domain.name)
        if size > MOST_ELEMENTS:
            self.fault("domain too large", domain.unit, domain.name)

    # ---- functions

    def check_functions(self):
        for number, declaration in self.all_of("declarations"):
            if declaration[0] != "function":
                continue
            _, kind, name, domains, codomain = declaration
            before = len(self.faults)
            for domain in domains:
                if domain.text == "Integer":
                    self.fault("domain too large", number, domain)
                elif domain.text not in self.domains:
                    self.fault("unknown name", number, domain)
            if codomain.text == "Integer":
                if kind in DYNAMIC:
                    self.fault("domain too large", number, codomain)
            elif codomain.text not in self.domains:
                self.fault("unknown name", number, codomain)
            if len(domains) > MOST_ARGUMENTS:
                self.fault("wrong number of arguments", number, name)
            self.functions[name.text] = Function(
                kind, name, number, [domain.text for domain in domains], codomain.text, self.is_constant(declaration)
            )
            if kind in DYNAMIC and len(self.faults) == before:
                self.count_locations(number, name, domains)

    def count_locations(self, unit, name, domains):
        count = 1
        for domain in domains:
            count *= len(self.domains[domain.text].elements)
        if self.locations <= MOST_LOCATIONS < self.locations + count:
            self.fault("too many locations", unit, name)
        self.locations += count

    # ---- bodies: types

    def check_bodies(self):
        self.note_rules()
        for number, (unit, file) in enumerate(self.units):
            self.unit = number
            for definition in unit.definitions:
                if definition[0] == "function":
                    self.check_definition(*definition[1:], self.definitions, DEFINED)
                elif definition[0] == "rule":
                    self.check_rule(definition[3], self.bind({}, definition[2], True))
                elif definition[0] == "invariant":
                    self.check_invariant(definition, file)
            if unit is self.last and unit.main:
                self.check_rule(unit.main[1], {})
            if unit is self.last and unit.init:
                for function in unit.init[1]:
                    self.check_definition(*function, self.initial, KEPT)

    def note_rules(self):
        for number, (unit, file) in enumerate(self.units):
            for definition in unit.definitions:
                if definition[0] == "rule":
                    self.rules[definition[1].text] = Rule(definition[1], number, definition[2], definition[3], file)
            if unit is self.last and unit.main:
                self.rules[unit.main[0].text] = Rule(unit.main[0], number, [], unit.main[1], file)

    def check_invariant(self, definition, file):
        _, first, _, over, term = definition
        for name in over:
            if name.text not in self.names or name.text in ("Boolean", "Integer"):
                self.fault("unknown name", self.unit, name)
        self.ask(term, "Boolean", {})
        self.invariants.append((self.unit, first, term, file))

    def check_definition(self, name, parameters, term, table, kinds):
        function = self.functions.get(name.text)
        if function is None:
            self.fault("unknown name", self.unit, name)
        elif function.kind not in kinds or function.is_constant:
            self.fault("wrong kind", self.unit, name)
        if name.text in table:
            self.fault("declared twice", self.unit, name)
        else:
            table[name.text] = Definition(name, self.unit, parameters, term)
        types = self.bind({}, parameters, True)
        if function is not None and len(parameters) != len(function.domains):
            self.fault("wrong number of arguments", self.unit, name)
        elif function is not None:
            for (_, domain), wanted in zip(parameters, function.domains):
                if (domain.text in self.domains or domain.text == "Integer") and domain.text != wanted:
                    self.fault("wrong type", self.unit, domain)
        self.ask(term, function and self.type_of(function.codomain), types)

    def type_of(self, name):
        """The type of the elements of a domain: two domains of numbers have one type."""
        if name in ("Boolean", "Integer"):
            return name
        domain = self.domains.get(name)
        return domain and ("Integer" if domain.kind == "range" else name)

    def bind(self, types, binders, may_be_integer):
        types, seen = dict(types), set()
        for variable, domain in binders:
            if variable.text in seen:
                self.fault("declared twice", self.unit, variable)
            seen.add(variable.text)
            if domain.text == "Integer":
                if not may_be_integer:
                    self.fault("wrong kind", self.unit, domain)
            elif domain.text not in self.domains:
                self.fault("unknown name", self.unit, domain)
            types[variable.text] = self.type_of(domain.text)
        return types

    def bind_terms(self, bindings, types):
        types, seen = dict(types), set()
        for variable, term in bindings:
            found = self.infer(term, types)
            if variable.text in seen:
                self.fault("declared twice", self.unit, variable)
            seen.add(variable.text)
            types[variable.text] = found
        return types

    def ask(self, term, wanted, types):
        found = self.infer(term, types)
        if wanted is not None and found is not None and found != wanted:
            self.fault("wrong type", self.unit, term.first)

    def alike(self, terms, types):
        """The type of the first term that has one; each other has it, or none."""
        found = [self.infer(term, types) for term in terms]
        wanted = next((one for one in found if one is not None), None)
        for term, one in zip(terms, found):
            if one is not None and one != wanted:
                self.fault("wrong type", self.unit, term.first)
        return wanted

    def infer(self, term, types):
        """The type of a term, or None where it fits every type or stands for nothing."""
        kind = term.kind
        if kind == "number":
            return "Integer"
        if kind == "truth":
            return "Boolean"
        if kind == "undef":
            return None
        if kind == "variable":
            if term.name not in types:
                self.fault("unbound variable", self.unit, term.first)
            return types.get(term.name)
        if kind == "element":
            what = self.names.get(term.name)
            if what is None or what[0] != "element":
                self.fault("unknown name", self.unit, term.first)
                return None
            return what[1]
        if kind == "apply":
            function = self.functions.get(term.name.text)
            if function is None:
                self.fault("unknown name", self.unit, term.name)
                self.infer_all(term.arguments, types)
                return None
            self.ask_arguments(function.domains, term, types)
            return self.type_of(function.codomain)
        if kind == "operator":
            return self.infer_operator(term, types)
        if kind == "if":
            self.ask(term.guard, "Boolean", types)
            return self.alike([term.then, term.otherwise], types)
        if kind == "switch":
            self.alike([term.value] + [case for case, _ in term.cases], types)
            return self.alike([body for _, body in term.cases] + [term.otherwise], types)
        if kind == "let":
            return self.infer(term.body, self.bind_terms(term.bindings, types))
        types = self.bind(types, term.binders, False)
        if term.guard is not None:
            self.ask(term.guard, "Boolean", types)
        return "Boolean"

    def infer_operator(self, term, types):
        operator = term.operator
        if operator in ("eq", "neq"):
            self.alike(term.arguments, types)
        elif operator in ("isDef", "isUndef"):
            self.infer_all(term.arguments, types)
        else:
            for argument in term.arguments:
                self.ask(argument, "Boolean" if operator in CONNECTIVES else "Integer", types)
        return "Integer" if operator in ARITHMETIC else "Boolean"

    def infer_all(self, terms, types):
        for term in terms:
            self.infer(term, types)

    def ask_arguments(self, domains, tree, types):
        if len(tree.arguments) != len(domains):
            self.fault("wrong number of arguments", self.unit, tree.name)
            self.infer_all(tree.arguments, types)
        else:
            for argument, domain in zip(tree.arguments, domains):
                self.ask(argument, self.type_of(domain), types)

    def check_rule(self, rule, types):
        kind = rule.kind
        if kind in ("par", "seq"):
            for part in rule.rules:
                self.check_rule(part, types)
        elif kind == "if":
            self.ask(rule.guard, "Boolean", types)
            self.check_rule(rule.then, types)
            self.check_rule(rule.otherwise, types)
        elif kind == "switch":
            self.alike([rule.value] + [case for case, _ in rule.cases], types)
            for _, body in rule.cases:
                self.check_rule(body, types)
            self.check_rule(rule.otherwise, types)
        elif kind == "let":
            self.check_rule(rule.body, self.bind_terms(rule.bindings, types))
        elif kind in ("forall", "choose"):
            bound = self.bind(types, rule.binders, False)
            if rule.guard is not None:
                self.ask(rule.guard, "Boolean", bound)
            self.check_rule(rule.body, bound)
            self.check_rule(rule.otherwise, types)
        elif kind == "call":
            called = self.rules.get(rule.name.text)
            if called is None:
                self.fault("unknown name", self.unit, rule.name)
                self.infer_all(rule.arguments, types)
            else:
                self.ask_arguments([domain.text for _, domain in called.parameters], rule, types)
        elif kind == "update":
            self.check_update(rule, types)

    def check_update(self, rule, types):
        function = self.functions.get(rule.name.text)
        if function is None:
            self.fault("unknown name", self.unit, rule.name)
            self.infer_all(rule.arguments + [rule.value], types)
            return
        if function.kind not in KEPT:
            self.fault("wrong kind", self.unit, rule.name)
        self.ask_arguments(function.domains, rule, types)
        self.ask(rule.value, self.type_of(function.codomain), types)

    # ---- what is missing

    def check_missing(self):
        for name, function in self.functions.items():
            if function.kind in DEFINED and not function.is_constant and name not in self.definitions:
                self.fault("no definition", function.unit, function.name)
        number = len(self.units) - 1
        if not self.last.is_asm or self.last.main is None:
            self.fault("no main rule", number, self.last.name)
        if self.last.init is None:
            self.fault("no default init", number, self.last.name)

    # ---- calls

    def check_calls(self):
        definitions = {name: applied(definition.body) for name, definition in self.definitions.items()}
        rules = {name: called(rule.body) for name, rule in self.rules.items()}
        for graph, things in ((definitions, self.definitions), (rules, self.rules)):
            for name in graph:
                if name in reached(graph, graph[name]):
                    self.fault("defined by itself", things[name].unit, things[name].name)
        if self.faults:
            return
        for graph, things in ((definitions, self.definitions), (rules, self.rules)):
            depths = {}
            for name in graph:
                if depth(graph, name, depths) > MOST_CALLS:
                    self.fault("calls too deep", things[name].unit, things[name].name)

    # ---- reads

    def reads(self, term, kinds):
        graph = {name: applied(definition.body) for name, definition in self.definitions.items()}
        named = applied(term)
        return any(self.functions[name].kind in kinds for name in named | reached(graph, named))

    def check_reads(self):
        for name, definition in self.definitions.items():
            if self.functions[name].kind == "static" and self.reads(definition.body, DYNAMIC):
                self.fault("forbidden read", definition.unit, definition.name)
        for definition in self.initial.values():
            if self.reads(definition.body, DYNAMIC):
                self.fault("forbidden read", definition.unit, definition.name)
        for unit, first, term, _ in self.invariants:
            if self.reads(term, ("monitored",)):
                self.fault("forbidden read", unit, first)

    # ---- ranges of numbers

    def check_ranges(self):
        for definition in [*self.definitions.values(), *self.initial.values()]:
            self.unit = definition.unit
            self.range_of(definition.body, self.ranges_of(definition.parameters))
        for unit, _, term, _ in self.invariants:
            self.unit = unit
            self.range_of(term, {})
        for rule in self.rules.values():
            self.unit = rule.unit
            self.range_rule(rule.body, self.ranges_of(rule.parameters))

    def range_in(self, name):
        if name == "Integer":
            return INTEGERS
        domain = self.domains[name]
        return (min(domain.elements), max(domain.elements)) if domain.kind == "range" else None

    def ranges_of(self, binders):
        return {variable.text: self.range_in(domain.text) for variable, domain in binders}

    def range_bindings(self, bindings, ranges):
        ranges = dict(ranges)
        for variable, term in bindings:
            ranges[variable.text] = self.range_of(term, ranges)
        return ranges

    def range_of(self, term, ranges):
        """The least and the greatest number that a term may have, or None where it has no range."""
        kind = term.kind
        if kind == "number":
            return term.value, term.value
        if kind == "undef":
            return 0, 0
        if kind == "variable":
            return ranges.get(term.name)
        if kind == "apply":
            for argument in term.arguments:
                self.range_of(argument, ranges)
            return self.range_in(self.functions[term.name.text].codomain)
        if kind == "operator":
            return self.range_operator(term, [self.range_of(argument, ranges) for argument in term.arguments])
        if kind == "if":
            self.range_of(term.guard, ranges)
            return hull([self.range_of(term.then, ranges), self.range_of(term.otherwise, ranges)])
        if kind == "switch":
            for tree in [term.value] + [case for case, _ in term.cases]:
                self.range_of(tree, ranges)
            return hull([self.range_of(tree, ranges) for tree in [body for _, body in term.cases] + [term.otherwise]])
        if kind == "let":
            return self.range_of(term.body, self.range_bindings(term.bindings, ranges))
        if kind == "quantifier" and term.guard is not None:
            self.range_of(term.guard, {**ranges, **self.ranges_of(term.binders)})
        return None

    def range_operator(self, term, given):
        operator = term.operator
        if operator not in ARITHMETIC:
            return None
        needed = given[:1] if operator in ("idiv", "mod") else given
        if any(one is None for one in needed):
            return None
        found = bounds(operator, *needed)
        if max(abs(found[0]), abs(found[1])) > GREATEST_BOUND:
            self.fault("range too wide", self.unit, term.first)
            return None
        return found

    def range_rule(self, rule, ranges):
        kind = rule.kind
        if kind in ("par", "seq"):
            for part in rule.rules:
                self.range_rule(part, ranges)
        elif kind == "if":
            self.range_of(rule.guard, ranges)
            self.range_rule(rule.then, ranges)
            self.range_rule(rule.otherwise, ranges)
        elif kind == "switch":
            self.range_of(rule.value, ranges)
            for case, body in rule.cases:
                self.range_of(case, ranges)
                self.range_rule(body, ranges)
            self.range_rule(rule.otherwise, ranges)
        elif kind == "let":
            self.range_rule(rule.body, self.range_bindings(rule.bindings, ranges))
        elif kind in ("forall", "choose"):
            bound = {**ranges, **self.ranges_of(rule.binders)}
            if rule.guard is not None:
                self.range_of(rule.guard, bound)
            self.range_rule(rule.body, bound)
            self.range_rule(rule.otherwise, ranges)
        elif kind in ("call", "update"):
            for term in rule.arguments + ([rule.value] if kind == "update" else []):
                self.range_of(term, ranges)


# ---- what trees name

def applied(term):
    """The functions that a term names."""
    if term is None:
        return set()
    inner = list(term.parts.get("arguments", []))
    inner += [term.parts[name] for name in ("guard", "then", "otherwise", "value", "body") if hasattr(term.parts.get(name), "kind") and term.kind != "number"]
    inner += [tree for case in term.parts.get("cases", []) for tree in case]
    inner += [tree for _, tree in term.parts.get("bindings", [])]
    names = {term.name.text} if term.kind == "apply" else set()
    return names.union(*map(applied, inner))


def called(rule):
    """The rules that a rule calls."""
    inner = list(rule.parts.get("rules", []))
    inner += [rule.parts[name] for name in ("then", "otherwise", "body") if name in rule.parts]
    inner += [body for _, body in rule.parts.get("cases", [])]
    names = {rule.name.text} if rule.kind == "call" else set()
    return names.union(*map(called, inner))


def reached(graph, names):
    """The names that are called from these, at once or through others."""
    found, left = set(), list(names)
    while left:
        name = left.pop()
        if name not in found:
            found.add(name)
            left += graph.get(name, ())
    return found


def depth(graph, name, depths):
    """How many things of the graph a chain of calls from this one has."""
    if name not in graph:
        return 0
    if name not in depths:
        depths[name] = 1 + max((depth(graph, other, depths) for other in graph[name]), default=0)
    return depths[name]


# ---- ranges

def hull(ranges):
    if any(one is None for one in ranges):
        return None
    return min(least for least, _ in ranges), max(greatest for _, greatest in ranges)


def bounds(operator, first, second=None):
    """The least and the greatest that an operator gives over ranges; `idiv` and `mod` go by the first alone."""
    least, greatest = first
    if operator in ("idiv", "mod"):
        most = max(abs(least), abs(greatest))
        return -most, most
    if operator == "negate":
        return -greatest, -least
    if operator == "abs":
        return 0 if least <= 0 <= greatest else min(abs(least), abs(greatest)), max(abs(least), abs(greatest))
    if operator == "plus":
        return least + second[0], greatest + second[1]
    if operator == "minus":
        return least - second[1], greatest - second[0]
    if operator == "mult":
        corners = [one * other for one in first for other in second]
        return min(corners), max(corners)
    if operator == "min":
        return min(least, second[0]), min(greatest, second[1])
    return max(least, second[0]), max(greatest, second[1])
