"""What terms and rules mean, and what `check`, `run` and `play` print of it, with the code."""
import itertools

from check import KEPT, Checker, beside, load, normal
from syntax import Fault, Parser, spot

MOST_BLOCKS, MOST_COMMANDS = 64, 100_000


class Stop(Exception):
    """A run ends here, with this line."""

    def __init__(self, line):
        super().__init__(line)
        self.line = line


class Need(Exception):
    """The input gives no value to this location."""

    def __init__(self, location):
        super().__init__(location)
        self.location = location


# ---- values: None is undef, a truth value, a whole number, or a pair of a domain and an element's name

def same(first, second):
    return type(first) is type(second) and first == second


def is_element(model, domain, value):
    if value is None:
        return False
    if domain == "Integer":
        return type(value) is int and -(2 ** 31) <= value <= 2 ** 31
    return any(same(element, value) for element in model.domains[domain].elements)


def rank(model, domain, value):
    """The place of a value in the order of its domain, with undef before all elements."""
    elements = model.domains[domain].elements
    return -1 if value is None else next(place for place, element in enumerate(elements) if same(element, value))


def value_text(value):
    if value is None:
        return "undef"
    if isinstance(value, bool):
        return "true" if value else "false"
    return value[1] if isinstance(value, tuple) else str(value)


def location_text(location):
    name, arguments = location
    return name + (f"({','.join(map(value_text, arguments))})" if arguments else "")


def tuples(model, domains):
    return itertools.product(*(model.domains[domain].elements for domain in domains))


def locations(model):
    """The kept locations in their order."""
    for name, function in model.functions.items():
        if function.kind in KEPT:
            for arguments in tuples(model, function.domains):
                yield name, arguments


class World:
    """A model with a state and an input."""

    def __init__(self, model, state, given):
        self.model, self.state, self.given = model, state, given

    # ---- terms; a variable has a value, or a domain, a term and the variables that it is evaluated with

    def value(self, term, variables):
        kind = term.kind
        if kind in ("number", "truth"):
            return term.value
        if kind == "undef":
            return None
        if kind == "element":
            return self.model.names[term.name][1], term.name
        if kind == "variable":
            return self.variable(variables[term.name])
        if kind == "apply":
            return self.apply(term.name.text, tuple(self.value(argument, variables) for argument in term.arguments))
        if kind == "operator":
            return operate(term.operator, [self.value(argument, variables) for argument in term.arguments])
        if kind == "let":
            return self.value(term.body, self.bind(term.bindings, variables))
        if kind == "quantifier":
            return self.quantify(term, variables)
        branch = self.branch(term, variables)
        return None if branch is None else self.value(branch, variables)

    def variable(self, held):
        if held[0] == "value":
            return held[1]
        _, domain, term, variables = held
        value = self.value(term, variables)
        return value if is_element(self.model, domain, value) else None

    def apply(self, name, arguments):
        function = self.model.functions[name]
        if not all(is_element(self.model, domain, value) for domain, value in zip(function.domains, arguments)):
            return None
        location = name, arguments
        if function.kind in KEPT:
            return self.state[location]
        if function.kind == "monitored":
            if location not in self.given:
                raise Need(location)
            return self.given[location]
        if function.is_constant:
            return function.codomain, name
        definition = self.model.definitions[name]
        value = self.value(definition.body, self.parameters(definition, arguments))
        return value if is_element(self.model, function.codomain, value) else None

    @staticmethod
    def parameters(definition, arguments):
        return {variable.text: ("value", value) for (variable, _), value in zip(definition.parameters, arguments)}

    def bind(self, bindings, variables):
        variables = dict(variables)
        for variable, term in bindings:
            variables[variable.text] = "value", self.value(term, variables)
        return variables

    def branch(self, tree, variables):
        """The branch that is taken, or None where the guard has no value."""
        if tree.kind == "if":
            guard = self.value(tree.guard, variables)
            return None if guard is None else tree.then if guard else tree.otherwise
        for case, body in tree.cases:
            if same(self.value(tree.value, variables), self.value(case, variables)):
                return body
        return tree.otherwise

    def bound(self, binders, variables):
        """The variables with each tuple of elements of the binders' domains, in order."""
        for values in tuples(self.model, [domain.text for _, domain in binders]):
            yield {**variables, **{variable.text: ("value", value) for (variable, _), value in zip(binders, values)}}

    def quantify(self, term, variables):
        values = [True if term.guard is None else self.value(term.guard, bound) for bound in self.bound(term.binders, variables)]
        if any(value is None for value in values):
            return None
        return {"forall": all(values), "exist": any(values), "exist unique": sum(values) == 1}[term.quantifier]

    # ---- rules: a list of pairs of a location and a value

    def fire(self, rule, variables, words, file):
        kind = rule.kind
        if kind == "skip":
            return []
        if kind == "update":
            return [self.update(rule, variables, file)]
        if kind == "par":
            return [update for part in rule.rules for update in self.fire(part, variables, words, file)]
        if kind == "seq":
            return self.in_turn(rule.rules, variables, words, file)
        if kind == "let":
            return self.fire(rule.body, self.bind(rule.bindings, variables), words, file)
        if kind == "forall":
            return [update for bound in self.passing(rule, variables, file) for update in self.fire(rule.body, bound, words, file)]
        if kind == "choose":
            return self.choose(rule, variables, words, file)
        if kind == "call":
            called = self.model.rules[rule.name.text]
            held = {
                variable.text: ("term", domain.text, argument, variables)
                for (variable, domain), argument in zip(called.parameters, rule.arguments)
            }
            return self.fire(called.body, held, words, called.file)
        branch = self.branch(rule, variables)
        if branch is None:
            raise Stop(f"stop: undefined guard at {self.place(file, rule)}")
        return self.fire(branch, variables, words, file)

    def place(self, file, rule):
        name, text = self.model.sources[file]
        return f"{name}:{spot(text, rule.first.at)}"

    def update(self, rule, variables, file):
        function = self.model.functions[rule.name.text]
        arguments = tuple(self.value(argument, variables) for argument in rule.arguments)
        if not all(is_element(self.model, domain, value) for domain, value in zip(function.domains, arguments)):
            raise Stop(f"stop: bad argument at {self.place(file, rule)}")
        value = self.value(rule.value, variables)
        location = rule.name.text, arguments
        if value is not None and not is_element(self.model, function.codomain, value):
            raise Stop(f"stop: bad value {value_text(value)} for {location_text(location)} at {self.place(file, rule)}")
        return location, value

    def in_turn(self, rules, variables, words, file):
        """Each part in the state after those before it, as long as these give a consistent set."""
        updates = self.fire(rules[0], variables, words, file)
        for rule in rules[1:]:
            if clash(self.model, updates) is not None:
                return updates
            later = World(self.model, {**self.state, **dict(updates)}, self.given)
            further = later.fire(rule, variables, words, file)
            changed = {location for location, _ in further}
            updates = further + [update for update in updates if update[0] not in changed]
        return updates

    def passing(self, rule, variables, file):
        """The variables with each tuple for which the guard is true."""
        for bound in self.bound(rule.binders, variables):
            guard = True if rule.guard is None else self.value(rule.guard, bound)
            if guard is None:
                raise Stop(f"stop: undefined guard at {self.place(file, rule)}")
            if guard:
                yield bound

    def choose(self, rule, variables, words, file):
        candidates = list(self.passing(rule, variables, file))
        if not candidates:
            return self.fire(rule.otherwise, variables, words, file)
        if not words:
            raise Stop(f"stop: no choice word at {self.place(file, rule)}")
        return self.fire(rule.body, candidates[words.pop(0) % len(candidates)], words, file)


def operate(operator, values):
    if operator in ("eq", "neq"):
        return same(*values) == (operator == "eq")
    if operator in ("isDef", "isUndef"):
        return (values[0] is None) == (operator == "isUndef")
    if any(value is None for value in values):
        return None
    first, second = values[0], values[-1]
    if operator in ("idiv", "mod"):
        if second == 0:
            return None
        quotient = abs(first) // abs(second) * (1 if (first < 0) == (second < 0) else -1)
        return quotient if operator == "idiv" else first - quotient * second
    return {
        "not": lambda: not first,
        "and": lambda: first and second,
        "or": lambda: first or second,
        "xor": lambda: first != second,
        "implies": lambda: not first or second,
        "iff": lambda: first == second,
        "lt": lambda: first < second,
        "le": lambda: first <= second,
        "gt": lambda: first > second,
        "ge": lambda: first >= second,
        "plus": lambda: first + second,
        "minus": lambda: first - second,
        "negate": lambda: -first,
        "mult": lambda: first * second,
        "min": lambda: min(values),
        "max": lambda: max(values),
        "abs": lambda: abs(first),
    }[operator]()


def clash(model, updates):
    """The least location that has two values, with its two least ones, or None."""
    for location in locations(model):
        values = []
        for value in (value for other, value in updates if other == location):
            if not any(same(value, other) for other in values):
                values.append(value)
        if len(values) > 1:
            values.sort(key=lambda value: rank(model, model.functions[location[0]].codomain, value))
            return location, values[0], values[1]
    return None


# ---- runs

class Session:
    """A run so far: its state and what was printed."""

    def __init__(self, model):
        self.model, self.number, self.printed, self.state = model, 0, [], {}

    def begin(self):
        for location in locations(self.model):
            self.state[location] = self.initial(location)
        self.show()

    def initial(self, location):
        name, arguments = location
        definition = self.model.initial.get(name)
        if definition is None:
            return None
        value = World(self.model, {}, {}).value(definition.body, World.parameters(definition, arguments))
        if value is not None and not is_element(self.model, self.model.functions[name].codomain, value):
            raise Stop(f"stop: bad initial value {value_text(value)} for {location_text(location)}")
        return value

    def show(self):
        self.printed.append(f"state {self.number}")
        for location in locations(self.model):
            self.printed.append(f"  {location_text(location)} = {value_text(self.state[location])}")
        for place, (_, _, term, _) in enumerate(self.model.invariants):
            if World(self.model, self.state, {}).value(term, {}) is not True:
                raise Stop(f"stop: invariant {place + 1}")

    def step(self, given, words, rule, file):
        shared = {location: value for location, value in given.items() if self.model.functions[location[0]].kind == "shared"}
        world = World(self.model, {**self.state, **shared}, given)
        try:
            updates = world.fire(rule, {}, words, file)
        except Need as need:
            raise Stop(f"stop: no input for {location_text(need.location)}") from None
        found = clash(self.model, updates)
        if found is not None:
            location, first, second = found
            raise Stop(f"stop: clash at {location_text(location)}: {value_text(first)} and {value_text(second)}")
        self.state = {**world.state, **dict(updates)}
        self.number += 1
        self.show()

    def step_of_main(self, given, words):
        self.step(given, words, self.model.main.body, self.model.main.file)


def bind(model, setting, name, text):
    """The location and the value that a setting gives."""
    function, arguments, value = setting
    found = model.functions.get(function.text)

    def meant(constant, domain):
        kind, held = constant
        return (domain, held) if kind == "name" else held

    if found is not None and found.kind in ("monitored", "shared") and len(arguments) == len(found.domains):
        values = [meant(argument, domain) for argument, domain in zip(arguments, found.domains)]
        given = meant(value, found.codomain)
        if all(map(lambda domain, one: is_element(model, domain, one), [*found.domains, found.codomain], [*values, given])):
            return (function.text, tuple(values)), given
    raise Fault(f"{name}:{spot(text, function.at)}: bad set: {function.text}")


def answer(printed, code):
    return "".join(line + "\n" for line in printed), code


def read(files, name):
    name = normal(name)
    if name not in files:
        raise Fault(f"{name}: no such file")
    return name, files[name]


def check(files, model):
    sources = []
    try:
        return answer([Checker(load(files, model, sources), sources).check().counts()], 0)
    except Fault as fault:
        return answer([fault.line], 3)


def run(files, model, inputs=None, steps=None, choices=()):
    sources, given = [], []
    try:
        checked = Checker(load(files, model, sources), sources).check()
        if inputs is not None:
            name, text = read(files, inputs)
            given = [dict(bind(checked, setting, name, text) for setting in step) for step in Parser(text, name, True).inputs()]
    except Fault as fault:
        return answer([fault.line], 3)
    session, words = Session(checked), list(choices)
    try:
        session.begin()
        for number in range(len(given) if steps is None else steps):
            session.step_of_main(given[number] if number < len(given) else {}, words)
    except Stop as stop:
        return answer([*session.printed, stop.line], 4)
    return answer([*session.printed, "end"], 0)


# ---- plays

def commands_of(name, text, commands):
    """The commands in the order in which they are met, with blocks in place of their names."""
    blocks, met, missing = {}, [], []

    def meet(command):
        if command[0] != "execblock":
            return [command]
        if command[1].text not in blocks:
            missing.append(command[1])
        return blocks.get(command[1].text, [])

    if sum(command[0] == "block" for command in commands) > MOST_BLOCKS:
        raise Fault(f"{name}: scenario too long")
    for command in commands:
        if command[0] == "block":
            found = [one for inner in command[2] for one in meet(inner)]
            blocks[command[1].text] = found
        else:
            found = meet(command)
        met += found
    if len(met) > MOST_COMMANDS:
        raise Fault(f"{name}: scenario too long")
    if missing:
        raise Fault(f"{name}:{spot(text, missing[0].at)}: no such block: {missing[0].text}")
    return met


def resolve(model, name, text, commands):
    """Checks each command in the order of the text, and gives the settings by the places of their commands."""
    settings, units = {}, model.units
    for command in [inner for command in commands for inner in (command[2] if command[0] == "block" else [command])]:
        if command[0] == "set":
            settings[id(command)] = bind(model, command[1], name, text)
        elif command[0] in ("until", "check", "exec"):
            model.units, model.unit = [(None, 0)], 0
            try:
                resolve_tree(model, command)
            finally:
                model.units = units
    return settings


def resolve_tree(model, command):
    if command[0] == "exec":
        model.check_rule(command[1], {})
        model.tell()
        model.range_rule(command[1], {})
    else:
        model.ask(command[1], "Boolean", {})
        model.tell()
        model.range_of(command[1], {})
    model.tell()


class Play:
    """A scenario that is being played."""

    def __init__(self, model, settings, words, budget):
        self.session, self.settings, self.words, self.budget = Session(model), settings, words, budget
        self.model, self.pending, self.checks = model, {}, 0

    def holds(self, term):
        try:
            return World(self.model, self.session.state, self.pending).value(term, {}) is True
        except Need as need:
            raise Stop(f"stop: no input for {location_text(need.location)}") from None

    def step(self, rule, file):
        self.session.step(self.pending, self.words, rule, file)
        self.pending = {location: value for location, value in self.pending.items() if self.model.functions[location[0]].kind != "shared"}

    def until(self, term):
        steps = 0
        while not self.holds(term):
            if steps == self.budget:
                raise Stop(f"stop: budget {self.budget} used up")
            self.step(self.model.main.body, self.model.main.file)
            steps += 1

    def act(self, command):
        """Whether the play goes on."""
        kind = command[0]
        if kind == "set":
            location, value = self.settings[id(command)]
            self.pending[location] = value
        elif kind == "step":
            self.step(self.model.main.body, self.model.main.file)
        elif kind == "until":
            self.until(command[1])
        elif kind == "exec":
            self.step(command[1], 0)
        else:
            self.checks += 1
            passed = self.holds(command[1])
            self.session.printed.append(f"check {self.checks} {'passed' if passed else 'failed'}")
            return passed
        return True


def play(files, scenario, choices=(), budget=1000):
    sources = []
    try:
        name, text = read(files, scenario)
        sources.append((name, text))
        path, commands = Parser(text, name, True).scenario()
        model = Checker(load(files, beside(name, path), sources), sources).check()
        met = commands_of(name, text, commands)
        settings = resolve(model, name, text, commands)
    except Fault as fault:
        return answer([fault.line], 3)
    played = Play(model, settings, list(choices), budget)
    try:
        played.session.begin()
        passed = all(played.act(command) for command in met)
    except Stop as stop:
        return answer([*played.session.printed, stop.line], 4)
    return answer([*played.session.printed, "passed" if passed else "failed"], 0 if passed else 1)
