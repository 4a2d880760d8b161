#!/usr/bin/env python3
"""Gives a second opinion on the verdicts of hplan.

    tools/second_opinion.py DOMAIN PROBLEM --journal FILE    judges a journal, as `hplan certify`
    tools/second_opinion.py DOMAIN PROBLEM PLAN              judges a plan, as `hplan validate`

It is written from README and docs/ alone, and shares no code with hplan. It is slow, and made to be
read. docs/FORMATS.md has the grammar and the bytes, docs/USING.md what a plan means, and
docs/DEFINITIONS.md what a certificate means.

It prints the line of `hplan certify` or `hplan validate`, and exits with its status. If a file is
refused, it prints the error on standard error, without `hplan: `, and exits with status 1.
"""

import hashlib
import pathlib
import re
import sys
from collections import namedtuple

GREATEST_NUMBER = 10 ** 15
MOST_ACTIONS, MOST_ATOMS, MOST_FLUENTS = 2 ** 20, 2 ** 20, 2 ** 16
MOST_OPEN_FORMS, LONGEST_NAME, MOST_ENTRIES_OF_A_GROUP = 64, 255, 65536


class Refused(Exception):
    """A text, a plan or a journal is refused. The message is the line of the error."""


class Departs(Exception):
    """A number leaves the range, or a step has a negative cost."""


# Tokens. A kind of tokens is in upper case, as in the grammar.

Token = namedtuple("Token", "kind value place")

PIECE = re.compile(r"[ \t\r\n]+|;[^\n]*|[()]|[^ \t\r\n;()]+")
NAME = re.compile(r"[?:]?([A-Za-z][A-Za-z0-9_-]*)")
NUMBER = re.compile(r"-?[0-9]{1,18}")
NOT_READ = {"or", "imply", "forall", "exists", "when", "either", "preference", "scale-down",
            "maximize", "total-time", ":durative-action", ":derived", ":constraints", "/"}
KINDS = {"(": "(", ")": ")"}
KINDS.update(dict.fromkeys("+-*/", "OPERATOR"))
KINDS.update(dict.fromkeys(["<", "<=", "=", ">=", ">"], "RELATION"))
KINDS.update(dict.fromkeys(NOT_READ - {"/"} | {"and", "not"}, "RESERVED"))
KINDS.update(dict.fromkeys(["assign", "increase", "decrease", "scale-up"], "CHANGE"))
KINDS.update(dict.fromkeys([":strips", ":typing", ":negative-preconditions", ":equality",
                            ":fluents", ":numeric-fluents", ":action-costs"], "REQUIREMENT"))


def tokens_of(text):
    """Returns the tokens of a text, or refuses its first bad one."""
    return [token_of(piece.group(), piece.start()) for piece in PIECE.finditer(text)
            if piece.group()[0] not in " \t\r\n;"]


def token_of(run, place):
    """Returns the token that a run of bytes is. Names are in lower case."""
    name = NAME.fullmatch(run)
    if name and len(name[1]) > LONGEST_NAME:
        raise Refused(f"3 NameTooLong({place})")
    if name or run in KINDS:
        run = run.lower()
        usual = {"?": "VARIABLE", ":": "KEYWORD"}.get(run[0], "NAME")
        return Token(KINDS.get(run, usual), run, place)
    if NUMBER.fullmatch(run):
        return Token("NUMBER", int(run), place)
    if re.match("-?[0-9]", run):
        raise Refused(f"2 BadNumber({place})")
    raise Refused(f"1 BadByte({place})")


def check_parentheses(tokens, length):
    """Refuses a form that is not opened, not closed or too deep."""
    depth = 0
    for token in tokens:
        depth += {"(": 1, ")": -1}.get(token.kind, 0)
        if depth < 0:
            raise Refused(f"4 Unbalanced({token.place})")
        if depth > MOST_OPEN_FORMS:
            raise Refused(f"7 TooDeep({token.place})")
    if depth > 0:
        raise Refused(f"4 Unbalanced({length})")


# The grammar. A word of it is a rule, a kind of tokens or a token. After a word, `*` is any number
# of times, `+` at least once, and `?` at most once.

GRAMMAR = """
domain-text: ( define ( domain NAME ) requirements? types? constants? predicates? functions?
  action* ) END
requirements: ( :requirements REQUIREMENT* )
types: ( :types names )
constants: ( :constants names )
predicates: ( :predicates predicate* )
predicate: ( NAME variables )
functions: ( :functions function* )
function: ( NAME variables ) of-numbers?
of-numbers: - number
names: names-of-a-type* NAME*
names-of-a-type: NAME+ - NAME
variables: variables-of-a-type* VARIABLE*
variables-of-a-type: VARIABLE+ - NAME
action: ( :action NAME :parameters ( variables ) precondition? effects? )
precondition: :precondition condition
effects: :effect effect
condition: ( ) | ( and condition* ) | ( atom ) | ( not ( atom ) )
condition: ( = TERM TERM ) | ( not ( = TERM TERM ) ) | ( RELATION expression expression )
effect: ( ) | ( and effect* ) | ( atom ) | ( not ( atom ) ) | ( CHANGE fluent expression )
atom: NAME TERM*
fluent: ( NAME TERM* )
expression: NUMBER | fluent | ( + expression expression ) | ( * expression expression )
expression: ( - expression expression ) | ( - expression )
problem-text: ( define ( problem NAME ) ( :domain NAME ) requirements? objects? init goal
  metric? ) END
objects: ( :objects names )
init: ( :init fact* )
fact: ( atom ) | ( not ( atom ) ) | ( = fluent NUMBER )
goal: ( :goal condition )
metric: ( :metric minimize ( NAME ) )
"""
TIMES = {"*": (0, float("inf")), "+": (1, float("inf")), "?": (0, 1)}
TERM = ("NAME", "VARIABLE")

Tree = namedtuple("Tree", "kind members")


def rules_of(grammar):
    """Returns the choices of each rule: lists of a word, and how often it may stand there."""
    rules = {}
    for line in grammar.strip().replace("\n  ", " ").split("\n"):
        rule, _, choices = line.partition(": ")
        for choice in choices.split(" | "):
            words = [(word, 1, 1) if len(word) == 1 or word[-1] not in TIMES
                     else (word[:-1], *TIMES[word[-1]]) for word in choice.split()]
            rules.setdefault(rule, []).append(words)
    return rules


RULES = rules_of(GRAMMAR)


class Reader:
    """Reads one text by the grammar. `furthest` is the last token that was met and did not fit."""

    def __init__(self, text):
        self.tokens = tokens_of(text)
        check_parentheses(self.tokens, len(text))
        self.tokens += [Token("END", "", len(text))] * 2
        self.matches, self.furthest = {}, 0

    def read(self, rule):
        """Returns the tree of the text, or refuses the first token that is not allowed."""
        return (self.match(rule, 0) or self.refuse())[0]

    def match(self, word, place):
        """Returns a tree or a token of the word, and the place after it; or None if none fits."""
        if word in RULES:
            if (word, place) not in self.matches:
                matches = (self.match_choice(word, choice, place) for choice in RULES[word])
                self.matches[word, place] = next(filter(None, matches), None)
            return self.matches[word, place]
        token = self.tokens[place]
        if word in (token.kind, token.value) or (word == "TERM" and token.kind in TERM):
            return token, place + 1
        self.furthest = max(self.furthest, place)
        return None

    def match_choice(self, rule, choice, place):
        """Returns the same of one choice of a rule. The tree leaves out parentheses."""
        members = []
        for word, least, most in choice:
            count = 0
            while count < most and (match := self.match(word, place)):
                member, place = match
                members.append(member)
                count += 1
            if count < least:
                return None
        return Tree(rule, [member for member in members if member.kind not in "()"]), place

    def refuse(self):
        """Refuses the first token that is not allowed at its place, or the `not` before it."""
        place = self.furthest
        token, following = self.tokens[place:place + 2]
        before = [token.value for token in self.tokens[max(place - 3, 0):place]]
        is_equality = token.value == "=" and following.kind in TERM
        if before[-2:] == ["not", "("] and not is_equality:
            raise Refused(f"6 Unsupported(not, {self.tokens[place - 2].place})")
        if before == ["not", "(", "="]:
            raise Refused(f"6 Unsupported(not, {self.tokens[place - 3].place})")
        if token.value == "(" and following.value in NOT_READ:
            token = following
        in_requirements = place > 0 and (before[-1] == ":requirements"
                                         or KINDS.get(before[-1]) == "REQUIREMENT")
        if token.value in NOT_READ or (token.kind == "KEYWORD" and in_requirements):
            raise Refused(f"6 Unsupported({token.value}, {token.place})")
        raise Refused(f"5 Unexpected({token.place})")


def section(tree, kind):
    """Returns what a section of a text or of an action has, without its keyword."""
    return [member for found in tree.members if found.kind == kind
            for member in found.members if member.kind != "KEYWORD"]


def pairs(lists):
    """Returns pairs of a name, or a variable, and the name of its type, or None."""
    found = []
    for member in [member for names in lists for member in names.members]:
        if isinstance(member, Tree):
            *names, _, type_name = member.members
            found += [(name, type_name) for name in names]
        else:
            found.append((member, None))
    return found


def parts(trees):
    """Returns the parts of conditions or effects. Each `and` is opened.

    A part is `literal`, `equality`, `comparison` or `change`. Then comes whether it is wanted, or
    the relation, or the kind of change. Then come the trees or the names in it.
    """
    found = []
    for first, *rest in [tree.members for tree in trees if tree.members]:
        if first.kind == "atom":
            found.append(("literal", True, first))
        elif first.value == "and":
            found += parts(rest)
        elif first.value == "not":
            found.append(("literal", False, rest[0]) if rest[0].kind == "atom"
                         else ("equality", False, *rest[1:]))
        elif rest[0].kind in TERM:
            found.append(("equality", True, *rest))
        else:
            found.append(("change" if first.kind == "CHANGE" else "comparison", first.value, *rest))
    return found


def fluents_in(members):
    """Returns the fluents among the members of a part or a tree, and in their trees, in order."""
    found = []
    for member in members:
        if isinstance(member, Tree):
            found += [member] if member.kind == "fluent" else fluents_in(member.members)
    return found


# Names, types and the metric


class Checked:
    """What two texts say. The first error of names, types or the metric is refused."""

    def __init__(self, domain, problem):
        self.text, name = "problem", problem.members[4]
        if name.value != domain.members[2].value:
            self.refuse("14 DomainMismatch", name.place)
        self.text = "domain"
        self.parents, self.objects, self.actions = {"object": None}, {}, {}
        self.check_types(pairs(section(domain, "types")))
        self.declare(pairs(section(domain, "constants")), self.objects)
        self.predicates = self.check_signatures(section(domain, "predicates"))
        self.functions = self.check_signatures(section(domain, "functions"))
        for action in domain.members:
            if action.kind == "action":
                self.check_action(action)
        self.text = "problem"
        self.declare(pairs(section(problem, "objects")), self.objects)
        self.first_atoms, self.first_values = set(), {}
        facts = [fact.members for fact in section(problem, "init")]
        for fact in facts:
            self.check_fact(*fact)
        self.goal = parts(section(problem, "goal"))
        self.check_parts(self.goal, self.objects)
        self.metric = None
        for metric in section(problem, "metric")[1:]:
            self.metric = metric.value
            self.check_metric(metric, facts)
        self.changing = {(kind, target.members[0].value) for action in self.actions.values()
                         for kind, _, target, *_ in action.effect}

    def refuse(self, error, *about):
        """Refuses the text that is being checked."""
        raise Refused(f"{self.text}: {error}({', '.join(map(str, about))})")

    def check_name(self, name, known, wanted=True):
        """Refuses a name that is not known, or that is known and may not be."""
        if (name.value in known) != wanted:
            error = "8 UnknownName" if wanted else "9 Duplicate"
            self.refuse(error, name.value, name.place)

    def check_types(self, types):
        """Notes the type above each listed one, and refuses a type that is above itself."""
        for name, above in types:
            self.check_name(name, self.parents, wanted=False)
            self.parents[name.value] = above.value if above else "object"
        for above in set(self.parents.values()) - {None}:
            self.parents.setdefault(above, "object")
        for name, _ in types:
            above = self.parents[name.value]
            for _ in types:
                if above == name.value:
                    self.refuse("12 TypeCycle", name.value, name.place)
                above = self.parents[above] or above

    def is_subtype(self, below, above):
        """Reports whether all objects of the type `below` are of the type `above`."""
        while below not in (None, above):
            below = self.parents[below]
        return below == above

    def declare(self, names, declared):
        """Notes the type of each listed name or variable, and returns all that are declared."""
        for name, type_name in names:
            self.check_name(name, declared, wanted=False)
            if type_name:
                self.check_name(type_name, self.parents)
            declared[name.value] = type_name.value if type_name else "object"
        return declared

    def check_signatures(self, signatures):
        """Returns the types of the parameters of each predicate or function."""
        declared = {}
        for name, variables, *_ in [signature.members for signature in signatures]:
            self.check_name(name, declared, wanted=False)
            declared[name.value] = list(self.declare(pairs([variables]), {}).values())
        return declared

    def check_action(self, tree):
        """Checks one action, and notes it."""
        _, name, _, variables, *_ = tree.members
        self.check_name(name, self.actions, wanted=False)
        variables = self.declare(pairs([variables]), {})
        schema = Schema(name.value, variables, parts(section(tree, "precondition")),
                        parts(section(tree, "effects")))
        self.actions[name.value] = schema
        self.check_parts(schema.condition + schema.effect, {**self.objects, **variables})

    def check_parts(self, all_parts, known):
        """Checks a condition or an effect, in which some objects and variables are known."""
        for kind, _, *members in all_parts:
            if kind == "literal":
                self.check_use(members[0], self.predicates, known)
            for term in members if kind == "equality" else []:
                self.check_name(term, known)
            for fluent in fluents_in(members):
                self.check_use(fluent, self.functions, known)

    def check_use(self, use, declared, known):
        """Checks the name, the number and the types of the arguments of an atom or a fluent."""
        name, *terms = use.members
        self.check_name(name, declared)
        if len(terms) != len(declared[name.value]):
            self.refuse("10 WrongArity", name.value, name.place)
        for term, type_name in zip(terms, declared[name.value]):
            self.check_name(term, known)
            if not self.is_subtype(known[term.value], type_name):
                self.refuse("11 WrongType", term.value, term.place)

    def check_fact(self, first, use=None, number=None):
        """Checks one fact, and notes what it says of the initial state."""
        if number is None:
            self.check_use(use or first, self.predicates, self.objects)
            self.first_atoms |= set() if use else {ground(first)}
            return
        self.check_use(use, self.functions, self.objects)
        name = use.members[0]
        if ground(use) in self.first_values:
            self.refuse("9 Duplicate", name.value, name.place)
        if abs(number.value) > GREATEST_NUMBER:
            self.refuse("18 InitOutOfRange", number.place)
        self.first_values[ground(use)] = number.value

    def check_metric(self, metric, facts):
        """Checks that the metric's function only counts the cost, from 0 up."""
        self.check_name(metric, self.functions)
        if self.functions[metric.value]:
            self.refuse("10 WrongArity", metric.value, metric.place)
        self.text = "domain"
        for schema in self.actions.values():
            self.check_cost_only(schema.condition + schema.effect)
        self.text = "problem"
        for fact in facts:
            if len(fact) == 3 and ground(fact[1]) == (self.metric,) and fact[2].value != 0:
                self.refuse("13 BadMetric", fact[2].place)
        self.check_cost_only(self.goal)
        if (self.metric,) not in self.first_values:
            self.refuse("13 BadMetric", metric.place)

    def check_cost_only(self, all_parts):
        """Refuses a part that reads the metric's function, or changes it but by an increase."""
        for part in all_parts:
            allowed = 1 if part[:2] == ("change", "increase") else 0
            for name in [fluent.members[0] for fluent in fluents_in(part)[allowed:]]:
                if name.value == self.metric:
                    self.refuse("13 BadMetric", name.place)


# Ground actions. A ground atom or fluent is a tuple: its name and its objects. A literal is an
# atom, and whether it is wanted. A state is a set of true atoms, and the values of the fluents.

Schema = namedtuple("Schema", "name variables condition effect")
Condition = namedtuple("Condition", "literals equalities_hold comparisons fluents")
Action = namedtuple("Action", "printed condition adds deletes changes prices fluents")


def ground(use, binding={}):
    """Returns the ground atom or fluent of a tree, with objects for its variables."""
    name, *terms = use.members
    return (name.value, *(binding.get(term.value, term.value) for term in terms))


def ground_expression(tree, binding):
    """Returns a number, a fluent or an operation as a tuple, with objects for its variables."""
    first, *rest = tree.members
    if first.kind == "fluent":
        return ("fluent", ground(first, binding))
    return (first.value, *(ground_expression(part, binding) for part in rest))


def ground_condition(all_parts, binding={}):
    """Returns a condition with objects for its variables."""
    literals, comparisons, equalities_hold = [], [], True
    for kind, what, *members in all_parts:
        if kind == "literal":
            literals.append((ground(members[0], binding), what))
        elif kind == "equality":
            left, right = (binding.get(term.value, term.value) for term in members)
            equalities_hold = equalities_hold and (left == right) == what
        else:
            comparisons.append((what, *(ground_expression(side, binding) for side in members)))
    return Condition(literals, equalities_hold, comparisons, ground_fluents(all_parts, binding))


def ground_fluents(all_parts, binding):
    """Returns the fluents that a condition or an effect reads or changes, in order."""
    return [ground(fluent, binding) for part in all_parts for fluent in fluents_in(part)]


def ground_action(checked, schema, objects):
    """Returns an action with objects for its parameters, or None if its effects clash.

    Effects clash if one of them assigns or scales a fluent, and another one changes it too.
    """
    binding = dict(zip(schema.variables, objects))
    condition = ground_condition(schema.condition, binding)
    literals, changes, prices = {True: set(), False: set()}, [], []
    for kind, what, target, *amount in schema.effect:
        if kind == "literal":
            literals[what].add(ground(target, binding))
        elif ground(target) == (checked.metric,):
            prices.append(ground_expression(*amount, binding))
        else:
            changes.append((what, ground(target, binding), ground_expression(*amount, binding)))
    changed = [fluent for _, fluent, _ in changes]
    for change, fluent, _ in changes:
        if change in ("assign", "scale-up") and changed.count(fluent) > 1:
            return None
    return Action(printed((schema.name, *objects)), condition, literals[True],
                  literals[False] - literals[True], changes, prices if checked.metric else [(1,)],
                  condition.fluents + ground_fluents(schema.effect, binding))


def printed(words):
    """Returns a ground action or fluent as it is printed."""
    return "(" + " ".join(words) + ")"


# What an action means


def in_range(number):
    """Returns a number of the range from -10^15 to 10^15, and departs with any other."""
    if abs(number) > GREATEST_NUMBER:
        raise Departs
    return number


def evaluate(expression, values):
    """Returns the value of an expression, or departs if a part of it leaves the range."""
    first, *rest = expression
    if first == "fluent":
        return values[rest[0]]
    numbers = [evaluate(part, values) for part in rest]
    if first == "+":
        return in_range(numbers[0] + numbers[1])
    if first == "*":
        return in_range(numbers[0] * numbers[1])
    if first == "-":
        return in_range(numbers[0] - numbers[1] if len(numbers) == 2 else -numbers[0])
    return in_range(first)


def literals_hold(condition, atoms):
    """Reports whether the atoms and the objects are as a condition wants them."""
    return condition.equalities_hold and all(
        (atom in atoms) == wanted for atom, wanted in condition.literals)


def comparisons_hold(condition, values):
    """Reports whether all comparisons hold. Each one is evaluated, so each one may depart."""
    answers = []
    for relation, *sides in condition.comparisons:
        left, right = (evaluate(side, values) for side in sides)
        answers.append({"<": left < right, "<=": left <= right, "=": left == right,
                        ">=": left >= right, ">": left > right}[relation])
    return all(answers)


def holds(condition, atoms, values):
    """Reports whether a condition holds. Comparisons count only if all else holds."""
    return literals_hold(condition, atoms) and comparisons_hold(condition, values)


def result(action, atoms, values, cost):
    """Returns the atoms, the values and the cost of the plan after an action that applies.

    Deletes come before adds. All amounts are of the values before. Increases and decreases of a
    fluent add up, and only its new value has to be in the range.
    """
    after = dict(values)
    for change, fluent, amount in action.changes:
        amount = evaluate(amount, values)
        after[fluent] = {"assign": amount, "scale-up": after[fluent] * amount,
                         "increase": after[fluent] + amount,
                         "decrease": after[fluent] - amount}[change]
    for _, fluent, _ in action.changes:
        in_range(after[fluent])
    price = sum(evaluate(amount, values) for amount in action.prices)
    if price < 0:
        raise Departs
    return (atoms - action.deletes) | action.adds, after, in_range(cost + price)


def constant_price(checked, action):
    """Returns the cost of an action, or None if it may depend on the state.

    The cost is constant if each amount is a number, or a fluent that no action changes. Then it may
    not be below 0.
    """
    price = 0
    for first, *rest in action.prices:
        if first == "fluent" and ("change", rest[0][0]) not in checked.changing:
            price += checked.first_values[rest[0]]
        elif isinstance(first, int):
            price += first
        else:
            return None
    if price < 0:
        raise Refused(f"16 NegativeCost({action.printed})")
    return price


def check_defined(checked, fluents):
    """Refuses the first of the fluents that has no first value."""
    for fluent in fluents:
        if fluent not in checked.first_values:
            raise Refused(f"15 Undefined({printed(fluent)})")


# Plans


def read_plan(text):
    """Returns the steps of a plan file: lists of a name and its objects."""
    steps = []
    for count, line in enumerate(text.split("\n"), 1):
        line = line.strip(" \t\r")
        if line and line[0] != ";":
            try:
                tokens = tokens_of(line)
            except Refused:
                tokens = []
            kinds = " ".join(token.kind for token in tokens)
            if ";" in line or not re.fullmatch(r"\(( NAME| RESERVED| CHANGE)+ \)", kinds):
                raise Refused(f"19 BadLine({count})")
            steps.append([token.value for token in tokens[1:-1]])
    return steps


def cost_of_plan(checked, steps):
    """Returns the cost of a plan, or refuses it for its first error."""
    atoms, values, cost, count = checked.first_atoms, checked.first_values, 0, 0
    try:
        for count, step in enumerate(steps, 1):
            action = action_of_step(checked, *step)
            if action is None:
                raise Refused(f"20 NoSuchAction({count})")
            if not literals_hold(action.condition, atoms):
                raise Refused(f"21 NotApplicable({count})")
            check_defined(checked, action.fluents)
            constant_price(checked, action)
            if not comparisons_hold(action.condition, values):
                raise Refused(f"21 NotApplicable({count})")
            atoms, values, cost = result(action, atoms, values, cost)
        goal, count = ground_condition(checked.goal), count + 1
        if literals_hold(goal, atoms):
            check_defined(checked, goal.fluents)
            if comparisons_hold(goal, values):
                return cost
    except Departs:
        raise Refused(f"22 Departs({count})") from None
    raise Refused("23 GoalUnmet")


def action_of_step(checked, name, *objects):
    """Returns the action that a step names, or None if there is no such action."""
    schema = checked.actions.get(name)
    if schema is None or len(schema.variables) != len(objects):
        return None
    for thing, type_name in zip(objects, schema.variables.values()):
        if not checked.is_subtype(checked.objects.get(thing), type_name):
            return None
    return ground_action(checked, schema, objects)


# The ground task


class Task:
    """The actions that plans may use, by their numbers, with the atoms and fluents of the task."""

    def __init__(self, checked):
        self.first_atoms, self.first_values = checked.first_atoms, checked.first_values
        self.goal = ground_condition(checked.goal)
        self.actions, self.atoms = usable_actions(checked)
        self.atoms |= {atom for atom, _ in self.goal.literals}
        fluents = [fluent for met in [*self.actions, self.goal] for fluent in met.fluents]
        self.fluents = sorted(set(fluents) - {(checked.metric,)})
        if (len(self.actions) > MOST_ACTIONS or len(self.atoms) > MOST_ATOMS
                or len(self.fluents) > MOST_FLUENTS):
            raise Refused("17 TooMany")
        check_defined(checked, fluents)
        self.prices = [constant_price(checked, action) or 0 for action in self.actions]
        self.estimates = {}

    def state(self, node):
        """Returns the state of a node. Two of them are equal exactly if they are the same state."""
        atoms, values, _ = node
        return frozenset(atoms), tuple(values[fluent] for fluent in self.fluents)

    def estimate(self, atoms):
        """Returns the estimate h-max of a state, or None if the goal is out of reach.

        A literal that is true costs 0. An action offers each literal that it brings about, for its
        price plus the greatest cost of a literal of its condition. The least offer counts. The
        estimate is the greatest cost of a literal of the goal.
        """
        atoms = frozenset(atoms)
        if atoms not in self.estimates:
            costs, before = {(atom, atom in atoms): 0 for atom in self.atoms}, None
            while costs != before:
                before = dict(costs)
                for action, price in zip(self.actions, self.prices):
                    cost = self.greatest_cost(action.condition.literals, costs)
                    brought = [(atom, True) for atom in action.adds]
                    brought += [(atom, False) for atom in action.deletes]
                    for literal in brought if cost is not None else []:
                        costs[literal] = min(cost + price, costs.get(literal, cost + price))
            self.estimates[atoms] = self.greatest_cost(self.goal.literals, costs)
        return self.estimates[atoms]

    def greatest_cost(self, literals, costs):
        """Returns the greatest cost of some literals, or None if one of them is out of reach."""
        greatest = 0
        for literal in literals:
            if literal in costs:
                greatest = max(greatest, costs[literal])
            elif literal[0] in self.atoms:
                return None
        return greatest


def usable_actions(checked):
    """Returns the actions that a plan may use, in order, and the atoms that may become true.

    An atom may become true if it is true at first, or if a usable action adds it. An action is
    usable if its equalities hold, its literals of unchanging predicates hold at first, and the
    other atoms that it wants may become true.
    """
    atoms, found, count = set(checked.first_atoms), {}, -1
    while len(found) > count:
        count = len(found)
        for schema in checked.actions.values():
            for objects in usable_objects(checked, schema, atoms, ()):
                if (schema.name, objects) not in found:
                    action = ground_action(checked, schema, objects)
                    found[schema.name, objects] = action
                    atoms |= action.adds if action else set()
    actions = [found[schema.name, objects] for schema in checked.actions.values()
               for objects in usable_objects(checked, schema, atoms, ())]
    return [action for action in actions if action], atoms


def usable_objects(checked, schema, atoms, objects):
    """Yields the objects of all usable actions that begin with the given ones."""
    binding, unknown = dict(zip(schema.variables, objects)), list(schema.variables)[len(objects):]
    decided = []
    for kind, wanted, *members in schema.condition:
        if kind == "literal" and (wanted or ("literal", members[0].members[0].value)
                                  not in checked.changing):
            terms = members[0].members[1:]
        elif kind == "equality":
            terms = members
        else:
            continue
        if not any(term.value in unknown for term in terms):
            decided.append((kind, wanted, *members))
    if not literals_hold(ground_condition(decided, binding), atoms):
        return
    if not unknown:
        yield objects
        return
    for thing, type_name in checked.objects.items():
        if checked.is_subtype(type_name, schema.variables[unknown[0]]):
            yield from usable_objects(checked, schema, atoms, (*objects, thing))


# Journals


def read_journal(data, digest):
    """Returns the entries of a journal: parents, actions and places. The root's parent is None.

    A file without a whole header has no entries. A group stands after an open gate, which is `01`.
    The first gate that is not open ends the journal.
    """
    if len(data) <= 1 or (len(data) <= 39 and data[0] == 0):
        return []
    if (len(data) < 39 or data[1:5] != b"HDPJ" or data[5] not in (1, 2)
            or (len(data) > 39 and data[0] != 1)):
        raise Refused("32 NotAJournal")
    if data[6:38] != digest:
        raise Refused("33 OtherTask")
    width_of_parent = {1: 4, 2: 5}[data[5]]
    width = width_of_parent + 4
    entries, gate = [], 38
    while data[gate] == 1:
        count = int.from_bytes(data[gate + 1:gate + 5], "little")
        next_gate = gate + 5 + count * width
        if not 1 <= count <= MOST_ENTRIES_OF_A_GROUP or next_gate >= len(data):
            raise Refused(f"34 Damaged({gate})")
        for place in range(gate + 5, next_gate, width):
            entry = data[place:place + width]
            parent = int.from_bytes(entry[:width_of_parent], "little")
            action = int.from_bytes(entry[width_of_parent:], "little")
            entries.append((None if entry == b"\xff" * width else parent, action, place))
        gate = next_gate
    return entries


def digest_of(domain, problem):
    """Returns the digest of two texts. Their journals have it."""
    return hashlib.sha256(len(domain).to_bytes(8, "little") + domain + problem).digest()


# Certificates. A node is a plan that a search meets: the atoms and the values of the state to which
# it leads, and its cost. The root is the node of the empty plan.


def child(action, node):
    """Returns the node after an action, or None if the action is not applicable. It may depart."""
    atoms, values, cost = node
    return result(action, atoms, values, cost) if holds(action.condition, atoms, values) else None


def rebuilt(task, entries):
    """Returns the nodes of the entries, or refuses the first wrong entry.

    The first entry has to be the root. Each other one has to follow from an earlier entry, by an
    action that is applicable there and does not depart. No earlier entry may be the same.
    """
    nodes, seen = [], set()
    for parent, action, place in entries:
        node = None
        if parent is None:
            node = None if nodes else (task.first_atoms, task.first_values, 0)
        elif parent < len(nodes) and action < len(task.actions) and (parent, action) not in seen:
            try:
                node = child(task.actions[action], nodes[parent])
            except Departs:
                pass
        if node is None:
            raise Refused(f"34 Damaged({place})")
        nodes.append(node)
        seen.add((parent, action))
    return nodes


def verdict(task, entries):
    """Returns the line of the verdict that entries show by themselves.

    An entry at which the goal holds is a plan. The least cost of one is the bound. The entries show
    a verdict if nothing departs, and if each generated node that is no entry is needless.
    """
    nodes, bound, least = rebuilt(task, entries), None, {}
    expanded = {(parent, action) for parent, action, _ in entries}
    generated = [] if nodes else [(task.first_atoms, task.first_values, 0)]
    try:
        for place, node in enumerate(nodes):
            atoms, values, cost = node
            if holds(task.goal, atoms, values):
                bound = cost if bound is None else min(bound, cost)
            least[task.state(node)] = min(cost, least.get(task.state(node), cost))
            for number, action in enumerate(task.actions):
                next_node = child(action, node)
                if next_node and (place, number) not in expanded:
                    generated.append(next_node)
    except Departs:
        return "not certified"
    if not all(is_needless(task, node, least, bound) for node in generated):
        return "not certified"
    return "certified no plan" if bound is None else f"certified optimal; cost = {bound}"


def is_needless(task, node, least, bound):
    """Reports whether no verdict needs the node as an entry.

    Either an entry reaches its state at no greater cost: then all that follows from the node also
    follows from that entry. Or the goal is out of reach, or the node leads to no cheaper plan.
    """
    atoms, _, cost = node
    if least.get(task.state(node), cost + 1) <= cost or (bound is not None and cost >= bound):
        return True
    estimate = task.estimate(atoms)
    return estimate is None or (bound is not None and cost + estimate >= bound)


# The command line


def checked_texts(domain, problem):
    """Returns what two texts say, or refuses them."""
    trees = []
    for text, content in ("domain", domain), ("problem", problem):
        try:
            trees.append(Reader(content.decode("latin-1")).read(text + "-text"))
        except Refused as refused:
            raise Refused(f"{text}: {refused}") from None
    return Checked(*trees)


def main(domain, problem, *third):
    """Prints the opinion that the command line asks for, and returns the exit status."""
    try:
        texts = [pathlib.Path(path).read_bytes() for path in (domain, problem)]
        content = None if third[0] == "--journal" else pathlib.Path(third[0]).read_bytes()
        checked = checked_texts(*texts)
        if content is not None:
            line = f"valid; cost = {cost_of_plan(checked, read_plan(content.decode('latin-1')))}"
        else:
            task, content = Task(checked), pathlib.Path(third[1]).read_bytes()
            line = verdict(task, read_journal(content, digest_of(*texts)))
    except (Refused, OSError) as error:
        print(error if isinstance(error, Refused) else "35 Device", file=sys.stderr)
        return 1
    print(line)
    return 1 if line == "not certified" else 0


if __name__ == "__main__":
    if len(sys.argv) != (5 if sys.argv[3:4] == ["--journal"] else 4):
        print(__doc__, file=sys.stderr)
        sys.exit(2)
    sys.exit(main(*sys.argv[1:]))
