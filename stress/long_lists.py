"""The files that stress/abuse gives to the program: each is large along one list of a grammar, or nested as deep as a file
may be.

Each entry of ABUSES answers commands, as words in which DEV, CERT, FILE and HISTORY stand for the files, and the bytes of
these files by such a word. Its lists have COUNT items, or so many that a file is as large as one may be.
"""

import itertools
import os
import string

EXAMPLES = os.path.join(os.path.dirname(os.path.abspath(__file__)), os.pardir, "examples")
COUNT = 200_000
LARGE = 16_700_000
NESTING = 1000

# How many items the lists have now.
count = COUNT

BRANCH = "(branch (and) () ())"
SPEC = {"name": "s", "abstract": "(v 0 0)", "operations": f"(op go () 0 {BRANCH})"}
OBJECT = {
    "arrays": "(array cell (c 0 0))",
    "auxiliaries": "(h 0 0)",
    "actions": "(action act () (and))",
    "invariant": "",
    "idle": "",
    "locals": "x",
    "points": "(point p0 (load cell 0 (x) p1) (assert))",
    "bodies": "",
}
DEVELOPMENT = ["show DEV", "show DEV --lines", "conditions DEV", "check DEV CERT", "judge DEV HISTORY"]
HISTORY = b'{"events":[],"order":[]}'


def many(text, times=None, between=None):
    """This many copies of a text, with their number in place of `@`, and with no more between them than has to be."""
    parts, numbers = text.split("@"), range(times or count)
    if between is None:
        between = "" if text.endswith(")") else " "
    return between.join([str(i).join(parts) for i in numbers] if parts[1:] else [text] * len(numbers))


def short_names():
    """Names of two letters, again and again: a file has more of them than of names that differ."""
    pairs = map("".join, itertools.product(string.ascii_lowercase, repeat=2))
    return " ".join(itertools.islice(itertools.cycle(pairs), count))


def development(commands=DEVELOPMENT, certificate="(certificate s)", **parts):
    """A development with these parts, and the other files of its commands."""
    it = {**SPEC, **OBJECT, **parts}
    last = "" if "points" in parts else "(point p1 (return) (assert))"
    body = it["bodies"] or f"(body go ({it['locals']}) {it['points']} {last})"
    text = (
        f"(spec {it['name']} (abstract {it['abstract']}) {it['operations']})\n"
        f"(object {it['name']} {it['arrays']} (aux {it['auxiliaries']}) {it['actions']} "
        f"(invariant {it['invariant']}) (idle {it['idle']}) {body})\n"
    )
    return commands, {"DEV": text.encode(), "CERT": certificate.encode(), "HISTORY": HISTORY}


def operation(text, riders="", **parts):
    """A development whose one operation is this, with these riders at its first point."""
    points = f"(point p0 (load cell 0 (x) p1) (assert) (on next (act) {riders})) (point p1 (return) (assert))"
    return development(operations=text, points=points, **parts)


def first_point(instruction, asserts="", ons="", **parts):
    return development(points=f"(point p0 {instruction} (assert {asserts}) {ons}) (point p1 (return) (assert))", **parts)


def riders(text, **parts):
    return first_point("(load cell 0 (x) p1)", ons=f"(on next (act) {text})", **parts)


def certificate(text):
    return development(["check DEV CERT"], text)


def formula(hypotheses="", goal="(<= x 0)", proof="(open)", variables="x", columns=""):
    text = f"(formula (vars {variables}) (cols {columns}) (hyps {hypotheses}) (goal {goal}) (proof {proof}))"
    return ["formula FILE"], {"FILE": text.encode()}


def hints(text):
    return ["prove DEV --hints FILE"], {"DEV": development()[1]["DEV"], "FILE": f"(hints {text})".encode()}


def example(name):
    with open(os.path.join(EXAMPLES, name), "rb") as file:
        return file.read()


def plan(text):
    return ["run DEV CERT FILE"], {"DEV": example("counter.lc"), "CERT": example("counter.cert"), "FILE": f"(plan 1 {text})".encode()}


def judged(text):
    return ["judge DEV HISTORY", "draw DEV HISTORY", "order DEV HISTORY"], {"DEV": development()[1]["DEV"], "HISTORY": text.encode()}


def history(events="", order=""):
    return judged(f'{{"events":[{events}],"order":[{order}]}}')


def commas(text):
    return many(text, between=",")


def nested(begin, middle, end, depth):
    return begin * depth + middle + end * depth


def balanced(term, leaves, operation="+"):
    """The sum, or the difference, of this many copies of a term, as flat as it can be."""
    if leaves == 1:
        return term
    return f"({operation} {balanced(term, leaves // 2, operation)} {balanced(term, leaves - leaves // 2, operation)})"


def squared_sum():
    """A sum of sums: 67,108,864 times x, which the step `sum` adds up."""
    leaves = 8192
    return formula(
        f"(forall q (<= {balanced('q', leaves)} 0)) (<= 1 x)",
        "(or)",
        f"(inst 0 {balanced('?0', leaves)} (sum (3 1) (1 {leaves * leaves})))",
    )


def heavy_sum():
    """A sum whose numbers, multiplied out, leave 128 bits, put in for each variable of a difference that comes to 0."""
    leaves, most = 4096, 2**63 - 1
    products = "".join(f"(+ (* {most} (* {most} ?{k})) " for k in (1, 2, 3))
    return formula(
        f"(forall q (<= 1 {balanced('q', leaves, '-')}))",
        "(or)",
        f"(inst 0 {products}{balanced('?0', leaves)}))) (sum (2 1)))",
        variables="x y z w",
    )


def deep_steps():
    """Conjunctions that are nested as deep as they may be, taken apart by as deep a proof."""
    depth = NESTING - 4
    # The negated goal is 1, and each step appends one formula after it.
    steps = "(split 0 " + "".join(f"(split {2 + i} " for i in range(depth - 1))
    return formula(nested("(and ", "(<= 1 0)", ")", depth), "(or)", f"{steps}(sum ({1 + depth} 1)){')' * depth}")


def conjuncts(times):
    """This many conjuncts at a point that no code leads to, each with its three proofs. The conditions are not printed, since
    each has all conjuncts for hypotheses."""
    points = f"(point p0 (load cell 0 (x) p0) (assert)) (point p1 (load cell 0 (x) p0) (assert {many('(and)', times)}))"
    return development(
        ["show DEV", "check DEV CERT"], f"(certificate s {many(f'(proof @ (cases {times + 9}))', 3 * times)})", points=points
    )


def files(name, large):
    """What an entry answers; if it is to be large, with lists so long that a file has LARGE bytes, or none of less than half."""
    global count
    count = COUNT
    commands, texts = ABUSES[name]()
    for _ in range(2 if large else 0):
        count = count * LARGE // max(map(len, texts.values()))
        commands, texts = ABUSES[name]()
    is_due = not large or max(map(len, texts.values())) > LARGE // 2
    return commands if is_due else [], texts


BRANCHED = many(BRANCH, 8)
CHOICES = "(op go () 0 (choice one (k) (and) () ()))"
TOLD = "(n (<= (rd c 0) 0))"

ABUSES = {
    "small_formula": lambda: formula("(<= x 0)", "(<= x 0)", "(opposite 0 1)"),
    "small_development": development,
    # What an action, an edge or a point has too many of.
    "action_updates": lambda: development(actions=f"(action act () (and) {many('(c 0 1)')})"),
    "action_updates_told": lambda: development(actions=f"(action act () (and) {many('(c 0 1)')})", invariant=TOLD),
    "updates_told_at_a_point": lambda: riders(
        "", asserts="(<= (rd c 0) 0)", actions=f"(action act () (and) {many('(c 0 1)')})", invariant=TOLD
    ),
    "updates_of_a_column": lambda: development(actions=f"(action act () (and) {many('(c @ @)')})"),
    "updates_on_an_edge": lambda: riders("", actions=f"(action act () (and) {many('(c @ @)')})"),
    "lin_riders": lambda: riders(many("(lin)")),
    "set_riders": lambda: riders(many("(set h 0 1)")),
    "paths_and_updates": lambda: operation(
        f"(op go () 0 {BRANCHED})",
        many("(when (and) (lin))", 6),
        actions=f"(action act () (and) {many('(c 0 1)')})",
    ),
    "conjuncts_16000": lambda: conjuncts(16_000),
    "conjuncts_33000": lambda: conjuncts(33_000),
    "squared_sum": squared_sum,
    "heavy_sum": heavy_sum,
    # The forms of a file, and what a specification and an object are made of.
    "forms": lambda: (DEVELOPMENT, {"DEV": many("()").encode(), "CERT": many("()").encode(), "HISTORY": HISTORY}),
    "abstract_columns": lambda: development(abstract=many("(a@ 0 0)")),
    "array_columns": lambda: development(arrays=f"(array cell {many('(c@ 0 0)')})"),
    "arrays": lambda: development(arrays=many("(array cell@ (c@ 0 0))")),
    "auxiliary_columns": lambda: development(auxiliaries=many("(h@ 0 0)")),
    "operations": lambda: development(operations=many("(op go@ () 0 (branch (and) () ()))")),
    "operations_and_bodies": lambda: development(
        operations=many("(op go@ () 0 (branch (and) () ()))", count * 3 // 4),
        bodies=many("(body go@ () (point p@ (return) (assert)))", count * 3 // 4),
    ),
    # Two lists of which each item of one names the other.
    "bodies_and_arguments": lambda: development(
        operations=f"(op go ({many('a@', count // 3)}) 0 {BRANCH})" + many(f"(op go () 0 {BRANCH})", count // 3),
        bodies=many("(body go () (point p (return) (assert)))", count // 3 + 1),
    ),
    "points_and_updates": lambda: development(
        actions=f"(action act () (and) {many('(c @ @)', count // 2)})",
        points=many("(point p@ (load cell 0 (x) p0) (assert) (on next (act)))", count // 2),
    ),
    "points_and_branches": lambda: development(
        operations=f"(op go () 0 {many(BRANCH, count // 2)})",
        points=many("(point p@ (load cell 0 (x) p0) (assert) (on next (act) (lin)))", count // 2),
    ),
    "arguments": lambda: development(operations=f"(op go ({many('a@')}) 0 {BRANCH})"),
    "short_arguments": lambda: development(operations=f"(op go ({short_names()}) 0 {BRANCH})"),
    "numbers_for_arguments": lambda: development(operations=f"(op go ({many('0')}) 0 {BRANCH})"),
    "branches": lambda: operation(f"(op go () 0 {many('(branch (and) () ())')})", "(lin)"),
    "choices": lambda: operation(f"(op go () 0 {many('(choice way@ () (and) () ())')})", f"(lin-by way{count - 1})"),
    "parameters_of_a_choice": lambda: operation(
        f"(op go () 0 (choice one ({many('k@')}) (and) () ()))", f"(lin-by one {many('0')})"
    ),
    "choice_guard": lambda: operation(f"(op go () 0 (choice one () (or {many('(<= 0 @)')}) () ()))", "(lin-by one)"),
    "choice_updates": lambda: operation(f"(op go () 0 (choice one () (and) ({many('(v @ @)')}) ()))", "(lin-by one)"),
    "guard": lambda: operation(f"(op go () 0 (branch (and {many('(<= 0 @)')}) () ()))", "(lin)"),
    "branch_updates": lambda: operation(f"(op go () 0 (branch (and) ({many('(v @ @)')}) ()))", "(lin)"),
    "branch_replies": lambda: operation(f"(op go () {count} (branch (and) () ({many('0')})))", "(lin)"),
    "atoms": lambda: (DEVELOPMENT, {"DEV": many("0").encode(), "CERT": many("0").encode(), "HISTORY": HISTORY}),
    "actions": lambda: development(actions=many("(action act@ () (and))")),
    "action_parameters": lambda: riders("", actions=f"(action act ({many('p@')}) (and))"),
    "action_guard": lambda: riders("", actions=f"(action act () (or {many('(<= 0 @)')}))"),
    "invariant": lambda: development(invariant=many("(n@ (and))")),
    "invariant_or": lambda: development(invariant=f"(n (or {many('(<= 0 @)')}))"),
    "idle_and": lambda: development(idle=f"(and {many('(<= 0 @)')})"),
    "idle": lambda: development(idle=many('(or)')),
    "locals": lambda: development(locals=many("x@")),
    "short_locals": lambda: development(locals=short_names()),
    "bodies": lambda: development(bodies=many("(body go () (point p0 (return) (assert)))")),
    "points": lambda: development(points=many("(point p@ (return) (assert))")),
    "asserts": lambda: first_point("(load cell 0 (x) p1)", many("(or)")),
    "assert_and": lambda: first_point("(load cell 0 (x) p1)", f"(and {many('(<= 0 @)')})"),
    "assert_or": lambda: first_point("(load cell 0 (x) p1)", f"(or {many('(<= 0 @)')})"),
    "assert_forall": lambda: first_point("(load cell 0 (x) p1)", f"(forall i (and {many('(<= i @)')}))"),
    # What an instruction, an edge and a rider are made of.
    "load_targets": lambda: first_point(f"(load cell 0 ({many('x@')}) p1)"),
    "store_values": lambda: first_point(f"(store cell 0 ({many('0')}) p1)"),
    "cas_values": lambda: first_point(f"(cas cell 0 ({many('0')}) ({many('0')}) p1 p0)"),
    "faa_values": lambda: first_point(f"(faa cell 0 ({many('x@')}) ({many('0')}) p1)"),
    "set_pairs": lambda: first_point(f"(set ({many('(x@ 0)')}) p1)", locals=many("x@")),
    "if_and": lambda: first_point(f"(if (and {many('(or)')}) p1 p0)"),
    "if_or": lambda: first_point(f"(if (or {many('(<= 0 @)')}) p1 p0)"),
    "return_values": lambda: development(points=f"(point p0 (return {many('0')}) (assert))"),
    "ons": lambda: first_point("(load cell 0 (x) p1)", ons=many("(on next (act))")),
    "on_arguments": lambda: first_point("(load cell 0 (x) p1)", ons=f"(on next (act {many('0')}))"),
    "when_true": lambda: riders(f"(when (and {many('(or)')}) (lin))"),
    "when_and": lambda: riders(f"(when (and {many('(<= 0 @)')}) (lin))"),
    "choice_terms": lambda: operation(CHOICES, f"(lin-by one {many('0')})"),
    "note_choice_terms": lambda: operation(CHOICES, f"(note-by one {many('0')})"),
    "other_choice_terms": lambda: operation(CHOICES, f"(lin-other-by self go one {many('0')})"),
    # Certificates, formulas and proofs.
    "entries": lambda: certificate(f"(certificate s {many('(proof @ (open))')})"),
    "entries_without_proof": lambda: certificate(f"(certificate s {many('(proof @)')})"),
    "branches_of_a_proof": lambda: certificate(f"(certificate s (proof 0 (cases 0 {many('(open)')})))"),
    "sum_of_a_proof": lambda: certificate(f"(certificate s (proof 0 (sum {many('(@ 1)')})))"),
    "short_branches": lambda: certificate(f"(certificate s (proof 0 (cases 0 {many('(sum)')})))"),
    "branches_of_cuts": lambda: certificate(f"(certificate s (proof 0 (cases 0 {many('(cut(or)(sum)(sum))')})))"),
    "cut_of_a_proof": lambda: certificate(f"(certificate s (proof 0 (cut (and {many('(<= 0 @)')}) (open) (open))))"),
    "entries_of_sums": lambda: certificate(f"(certificate s {many('(proof @ (sum (0 1)))')})"),
    "variables": lambda: formula(variables=many("x@"), goal="(<= x0 0)"),
    "columns": lambda: formula(columns=many("c@")),
    "hypotheses_false": lambda: formula(many("(or)")),
    "or_of_implications": lambda: formula(f"(or {many('(=>(or)(or))')})"),
    "or_of_ors": lambda: formula(f"(or {many('(or(or)(or))')})"),
    "hypotheses": lambda: formula(many("(<= x @)"), "(<= x 7)", f"(opposite 7 {count})"),
    "and_split": lambda: formula(f"(and {many('(<= x @)')})", "(<= x 7)", "(split 0 (opposite 9 1))"),
    "or_cases": lambda: formula(f"(or {many('(<= 1 0)')})", "(or)", f"(cases 0 {many('(sum (2 1))')})"),
    "branches_of_a_formula": lambda: formula(proof=f"(cases 0 {many('(open)')})"),
    "or_cases_left": lambda: formula(f"(or {many('(<= 1 0)')})", "(or)", f"(cases 0 {many('(open)')})"),
    "implied_and_cases": lambda: formula("", f"(and {many('(and)')})", f"(cases 0 {many('(cases 1)')})"),
    "inst_and": lambda: formula(f"(forall q (and {many('(<= q @)')}))", "(or)", "(inst 0 ?0 (split 2 (open)))"),
    "fresh_or": lambda: formula(f"(exists q (or {many('(<= q @)')}))", "(or)", "(fresh 0 (open))"),
    "cut_and": lambda: formula(proof=f"(cut (and {many('(<= 0 @)')}) (open) (split 1 (open)))"),
    "sum_of_hypotheses": lambda: formula(many("(<= x @)"), "(or)", f"(sum {many('(@ 1)')})"),
    "or_pushed": lambda: formula(
        "",
        f"(or (=> (<= x 0) (<= x 0)) {many('(<= 0 @)')})",
        f"(push 0 (split 1 (push 2 (split {count + 3} (opposite {count + 4} {count + 5})))))",
    ),
    "sum_entries": lambda: formula("(<= 1 x) (<= x 0)", "(or)", f"(sum {many('(0 1) (1 1)', count // 2)})"),
    # Hints and plans.
    "hints": lambda: hints(many("(by @(open))")),
    "terms_of_a_hint": lambda: hints(f"(use 0 {many('0')})"),
    "cuts_of_hints": lambda: hints(many("(cut 0(or))")),
    "branches_of_a_hint": lambda: hints(f"(by 0(cases 0 {many('(sum)')}))"),
    "phases": lambda: plan(many("(phase)")),
    "scripts": lambda: plan(f"(phase {many('(@)')})"),
    "calls_of_a_script": lambda: plan(f"(phase(0 {many('(times 0(call get))')}))"),
    "numbers_of_a_script": lambda: plan(f"(phase(0(call get {many('0')})))"),
    # Histories.
    "events": lambda: history(commas('[@,"call","go",[]]')),
    "order": lambda: history(commas('[@,"call","go",[]]'), commas('[@,"go",[],[]]')),
    "numbers_for_events": lambda: history(commas("0")),
    "arrays_for_events": lambda: history(commas("[]")),
    "lists_for_events": lambda: history(commas("[0]")),
    "objects_for_events": lambda: history(commas('{"":0}')),
    "deep_lists_for_events": lambda: history(many(nested("[", "", "]", 100), count // 50, ",")),
    "arrays_for_entries": lambda: history("", commas("[]")),
    "numbers_of_a_call": lambda: history(f'[0,"call","go",[{commas("0")}]]'),
    "numbers_of_a_choice": lambda: history("", f'[0,"go",[],[],["one",[{commas("0")}]]]'),
    "keys": lambda: judged("{" + commas('"k@":0') + "}"),
    # As deep as a file may be.
    "brackets": lambda: (DEVELOPMENT, {"DEV": nested("(", "", ")", NESTING).encode(), "CERT": b"", "HISTORY": HISTORY}),
    "json_brackets": lambda: judged(nested("[", "", "]", 127)),
    "deep_guard": lambda: operation(f"(op go () 0 (branch {nested('(not ', '(and)', ')', NESTING - 4)} () ()))", "(lin)"),
    "deep_conjunct": lambda: first_point("(load cell 0 (x) p1)", nested("(forall i ", "(and)", ")", NESTING - 5)),
    "deep_term": lambda: first_point("(load cell 0 (x) p1)", f"(<= {nested('(+ 1 ', 'x', ')', NESTING - 5)} x)"),
    "deep_index": lambda: first_point("(load cell 0 (x) p1)", f"(<= {nested('(rd c ', 'x', ')', NESTING - 5)} x)"),
    "deep_update": lambda: riders("", actions=f"(action act () (and) (c 0 {nested('(rd c ', '0', ')', NESTING - 4)}))"),
    "deep_code": lambda: first_point(f"(set ((x {nested('(+ 1 ', 'x', ')', NESTING - 6)})) p1)"),
    "deep_proof": lambda: certificate(f"(certificate s (proof 0 {nested('(cut (and) (open) ', '(open)', ')', NESTING - 3)}))"),
    "deep_implication": lambda: formula("", nested("(=> (and) ", "(and)", ")", NESTING - 3), "(open)"),
    "deep_stores": lambda: formula("", f"(<= (rd {nested('(store ', 'a', ' 0 0)', NESTING - 5)} 0) 0)", "(open)", columns="a"),
    "deep_formula": lambda: formula(nested("(and ", "(<= 1 0)", ")", NESTING - 3), "(or)", "(split 0 (open))"),
    "deep_steps": deep_steps,
}
