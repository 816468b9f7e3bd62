"""The files that bench/run measures: large formula files, near the file limit of 16,777,216 bytes.

Each function of WORKLOADS answers the bytes of one file. The proofs in them hold, except where a docstring says so.
"""

LIMIT = 16_777_216
NESTING = 900


def formula(variables, columns, hypotheses, goal, proof):
    return f"(formula (vars {variables})\n(cols {columns})\n(hyps {hypotheses})\n(goal {goal})\n(proof {proof}))\n"


def in_branches(hypotheses, goal, branch, variables="x y", columns=""):
    """As many copies of a branch as fit: `cases` over one hypothesis, an `or` with a true part for each.

    Hypothesis 0 is that `or`, and after the others are the negated goal and the true part of the branch.
    """
    room = LIMIT - 1000 - len(hypotheses)
    copies = room // (len(branch) + len(" (and)\n"))
    alternatives = "(or" + " (and)" * copies + ")"
    proof = "(cases 0\n" + "\n".join([branch] * copies) + ")"
    return formula(variables, columns, f"{alternatives} {hypotheses}", goal, proof).encode()


def nested(steps, last):
    """Steps, each in the one before it, as `(step ..` with its end left out."""
    return "".join(f"{step} " for step in steps) + last + ")" * len(steps)


def cuts():
    """Chains of `cut`, each proved from hypothesis 1; 3 is the true part."""
    steps = [f"(cut (<= ?0 0) (opposite 1 {4 + i})" for i in range(NESTING)]
    return in_branches("(<= x 0)", "(<= x 0)", nested(steps, "(opposite 1 2)"))


def instances():
    """Chains of `inst`, each with another term."""
    steps = [f"(inst 1 (+ ?0 {i})" for i in range(NESTING)]
    return in_branches("(forall z (<= (* 2 z) (+ z z))) (<= x 0)", "(<= x 0)", nested(steps, "(opposite 2 3)"))


def stores():
    """Chains of `written`, each about another value."""
    steps = [f"(written c ?0 {i} ?1" for i in range(NESTING)]
    return in_branches("(<= x 0)", "(<= x 0)", nested(steps, "(opposite 1 2)"), columns="c")


def spine():
    """Formulas that are nested deep, each taken apart by as deep a proof."""
    depth = NESTING // 2
    formula_text = "(not (not " * depth + "(<= 1 0)" + "))" * depth
    steps = [f"(push {2 + i}" for i in range(depth)]
    branch = nested(steps, f"(sum ({2 + depth} 1))")
    copies = (LIMIT - 1000) // (len(formula_text) + len(branch) + 2)
    hypothesis = "(or " + "\n".join([formula_text] * copies) + ")"
    proof = "(cases 0\n" + "\n".join([branch] * copies) + ")"
    return formula("x", "", hypothesis, "(<= x 0)", proof).encode()


def layers():
    """Conjunctions that are nested as deep as they may be, each taken apart by as deep a proof."""
    formula_text = "(and " * NESTING + "(<= 1 0)" + ")" * NESTING
    steps = [f"(split {2 + i}" for i in range(NESTING)]
    branch = nested(steps, f"(sum ({2 + NESTING} 1))")
    copies = (LIMIT - 1000) // (len(formula_text) + len(branch) + 2)
    hypothesis = "(or " + "\n".join([formula_text] * copies) + ")"
    proof = "(cases 0\n" + "\n".join([branch] * copies) + ")"
    return formula("x", "", hypothesis, "(<= x 0)", proof).encode()


def shared():
    """Chains of `cut`, each with the same large formula, which is hypothesis 1 too."""
    part = "(<= (+ (rd c (* 2 {0})) {1}) (rd (store c {0} 5) (+ {0} 1)))"
    claim = "(and" + (" " + part.format("x", "y")) * 20 + ")"
    again = "(and" + (" " + part.format("?0", "?1")) * 20 + ")"
    steps = [f"(cut {again} (opposite 1 {4 + i})" for i in range(NESTING)]
    return in_branches(claim, claim, nested(steps, "(opposite 1 2)"), columns="c")


def wide_sum():
    """One `sum` with as many entries as fit, over a ring of 1,000 comparisons."""
    count = 1000
    variables = " ".join(f"x{i}" for i in range(count))
    hypotheses = "\n".join(f"(<= (+ x{i} 1) x{(i + 1) % count})" for i in range(count))
    ring = " ".join(f"({i} 1)" for i in range(count))
    rings = (LIMIT - 1000 - len(variables) - len(hypotheses)) // (len(ring) + 1)
    return formula(variables, "", hypotheses, "(or)", "(sum " + "\n".join([ring] * rings) + ")").encode()


def many_sums():
    """Small sums, one in each branch."""
    return in_branches("(<= (+ x 1) y) (<= y x)", "(or)", "(sum (1 1) (2 1))")


def wide_formula():
    """A hypothesis with as many parts as fit, which the proof does not use."""
    part = "(<= (+ (* 3 x) (- y 1)) (rd c (+ x 1)))\n"
    copies = (LIMIT - 1000) // len(part)
    return formula("x y", "c", f"(and {part * copies}) (<= 1 0)", "(or)", "(sum (1 1))").encode()


def atoms():
    """Short atoms; refused."""
    return b"a " * (LIMIT // 2)


def one_atom():
    """One atom; refused."""
    return b"a" * LIMIT


def brackets():
    """Empty lists; refused."""
    return b"()" * (LIMIT // 2)


def deep_brackets():
    """Lists that are nested as deep as they may be; refused."""
    return (b"(" * 1000 + b")" * 1000) * (LIMIT // 2000)


def one_comment():
    """One comment; refused."""
    return b";" + b"x" * (LIMIT - 1)


WORKLOADS = {
    it.__name__: it
    for it in (
        cuts,
        instances,
        stores,
        spine,
        layers,
        shared,
        wide_sum,
        many_sums,
        wide_formula,
        atoms,
        one_atom,
        brackets,
        deep_brackets,
        one_comment,
    )
}
