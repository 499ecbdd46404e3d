"""The canonical text of a unit."""
from syntax import Fault, Parser

LEVELS = {
    "iff": 1, "implies": 2, "or": 3, "xor": 3, "and": 4, "not": 5, "eq": 6, "neq": 6, "lt": 6, "le": 6, "gt": 6, "ge": 6,
    "plus": 7, "minus": 7, "mult": 8, "mod": 8, "negate": 9,
}
SIGNS = {"eq": "=", "neq": "!=", "lt": "<", "le": "<=", "gt": ">", "ge": ">=", "plus": "+", "minus": "-", "mult": "*"}
TIGHTEST = 10


def level(term):
    return LEVELS.get(term.operator, TIGHTEST) if term.kind == "operator" else TIGHTEST


def at_least(term, wanted):
    text = term_text(term)
    return text if level(term) >= wanted else f"({text})"


def listed(items):
    return ", ".join(items)


def binders_text(binders):
    return listed(f"{variable.text} in {domain.text}" for variable, domain in binders)


def parameters_text(parameters):
    return f"({binders_text(parameters)})" if parameters else ""


def arguments_text(arguments):
    return f"({listed(map(term_text, arguments))})" if arguments else ""


def bindings_text(bindings):
    return listed(f"{variable.text} = {term_text(term)}" for variable, term in bindings)


def guard_text(guard):
    return "true" if guard is None else term_text(guard)


def operator_text(term):
    operator, arguments = term.operator, term.arguments
    if operator == "not":
        return "not " + at_least(arguments[0], 5)
    if operator == "negate":
        return "-" + at_least(arguments[0], 9)
    if operator not in LEVELS:
        return f"{operator}({listed(map(term_text, arguments))})"
    at = LEVELS[operator]
    left = at + 1 if at in (2, 6) else at
    right = at if at == 2 else at + 1
    return f"{at_least(arguments[0], left)} {SIGNS.get(operator, operator)} {at_least(arguments[1], right)}"


def term_text(term):
    kind = term.kind
    if kind == "number":
        return str(term.value)
    if kind == "truth":
        return "true" if term.value else "false"
    if kind == "undef":
        return "undef"
    if kind in ("variable", "element"):
        return term.name
    if kind == "apply":
        return term.name.text + arguments_text(term.arguments)
    if kind == "if":
        return f"if {term_text(term.guard)} then {term_text(term.then)} else {term_text(term.otherwise)} endif"
    if kind == "switch":
        cases = " ".join(f"case {term_text(case)} : {term_text(body)}" for case, body in term.cases)
        return f"switch {term_text(term.value)} {cases} otherwise {term_text(term.otherwise)} endswitch"
    if kind == "let":
        return f"let ({bindings_text(term.bindings)}) in {term_text(term.body)} endlet"
    if kind == "quantifier":
        return f"({term.quantifier} {binders_text(term.binders)} with {guard_text(term.guard)})"
    return operator_text(term)


def rule_lines(rule, indent):
    """The lines of a rule, each behind two spaces for each level."""
    kind, front = rule.kind, "  " * indent

    def inner(part):
        return rule_lines(part, indent + 1)

    if kind == "skip":
        return [front + "skip"]
    if kind == "update":
        return [f"{front}{rule.name.text}{arguments_text(rule.arguments)} := {term_text(rule.value)}"]
    if kind == "call":
        return [f"{front}{rule.name.text}[{listed(map(term_text, rule.arguments))}]"]
    if kind in ("par", "seq"):
        return [front + kind, *(line for part in rule.rules for line in inner(part)), f"{front}end{kind}"]
    if kind == "if":
        head = f"{front}if {term_text(rule.guard)} then"
        return [head, *inner(rule.then), front + "else", *inner(rule.otherwise), front + "endif"]
    if kind == "switch":
        lines = [f"{front}switch {term_text(rule.value)}"]
        for case, body in rule.cases:
            lines += [f"{front}case {term_text(case)} :", *inner(body)]
        return [*lines, front + "otherwise", *inner(rule.otherwise), front + "endswitch"]
    if kind == "let":
        return [f"{front}let ({bindings_text(rule.bindings)}) in", *inner(rule.body), front + "endlet"]
    lines = [f"{front}{kind} {binders_text(rule.binders)} with {guard_text(rule.guard)} do", *inner(rule.body)]
    return lines if kind == "forall" else [*lines, front + "ifnone", *inner(rule.otherwise)]


def declaration_line(declaration):
    kind = declaration[0]
    if kind == "enum":
        return f"  enum domain {declaration[1].text} = {{{' | '.join(element.text for element in declaration[2])}}}"
    if kind == "range":
        return f"  domain {declaration[1].text} subsetof {declaration[2].text}"
    if kind == "abstract":
        return f"  abstract domain {declaration[1].text}"
    _, kind, name, domains, codomain = declaration
    names = [domain.text for domain in domains]
    front = f"Prod({listed(names)}) -> " if len(names) > 1 else "".join(f"{one} -> " for one in names)
    return f"  {kind} {name.text} : {front}{codomain.text}"


def function_line(name, parameters, term):
    return f"  function {name.text}{parameters_text(parameters)} = {term_text(term)}"


def definition_lines(definition):
    kind = definition[0]
    if kind == "numbers":
        return [f"  domain {definition[1].text} = {{{definition[2][0]}..{definition[3][0]}}}"]
    if kind == "list":
        return [f"  domain {definition[1].text} = {{{listed(str(number) for number, _ in definition[2])}}}"]
    if kind == "function":
        return [function_line(*definition[1:])]
    if kind == "rule":
        return [f"  rule {definition[1].text}{parameters_text(definition[2])} =", *rule_lines(definition[3], 2)]
    _, _, name, over, term = definition
    return [f"  invariant {name.text + ' ' if name else ''}over {listed(one.text for one in over)} : {term_text(term)}"]


def canonical(unit):
    lines = [f"{'asm' if unit.is_asm else 'module'} {unit.name.text}"]
    lines += [f"import {path}" for path in unit.imports]
    lines += ["signature:", *map(declaration_line, unit.declarations), "definitions:"]
    lines += [line for definition in unit.definitions for line in definition_lines(definition)]
    if unit.main:
        lines += [f"main rule {unit.main[0].text} =", *rule_lines(unit.main[1], 1)]
    if unit.init:
        lines += [f"default init {unit.init[0].text}:", *(function_line(*function) for function in unit.init[1])]
    return "".join(line + "\n" for line in lines)


def print_form(text, name):
    """What `format` prints of a file, with the code."""
    try:
        return canonical(Parser(text, name).unit()), 0
    except Fault as fault:
        return fault.line + "\n", 3
