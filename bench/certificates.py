"""The developments and certificates that bench/run gives to `lincheck check`: some 95,000 conditions each, but for one with long
proofs, all of them proved. A register is read by many loads, of which the last is marked; what is claimed at each point has to be
kept by many actions.

Each function of CERTIFICATES answers the bytes of the two files.
"""
import re

# The two cases of a row read after a store: the row that was stored, and another one.
KEPT = "(split {h} {again}) (split {h} (trich 4 (trich 13 {pair}) (trich 13 {pair})))"
# The first case is impossible, since the clients are two.
SAME_CLIENT = "(trich 4 (sum ({e} 1) ({f} 1)) (sum ({e} -1) ({f} 1)))"


def kept(column, client, value, claim, first, again, guard=None):
    """The proof that a store at another client keeps the claimed row; hypotheses from `first` on are the store's."""
    last = first + 5
    pair = f"(sum ({claim} -1) ({last - 2} -1) ({last} 1)) (sum ({claim} 1) ({last - 2} 1) ({last} 1))"
    cases = KEPT.format(h=first + 1, again=again.format(e=first + 2, f=first + 4), pair=pair)
    proof = f"(written {column} {client} {value} ?1 (cases {first} {cases}))"
    return f"(split {guard} {proof})" if guard else proof


def left(claim, again):
    """The same where another client leaves, whose `pend` is known not to be 0."""
    pair = f"(trich 13 (sum ({claim} -1) (17 -1) (20 1)) (sum ({claim} 1) (17 1) (20 1)))"
    return (
        f"(written pend ?3 0 ?1 (cases 14 (split 15 {again.format(e=16, f=18)}) "
        f"(split 15 (trich 4 (trich 11 {pair} {pair}) (trich 11 {pair} {pair})))))"
    )


# Proofs of what is said of the edges, in the order of the conditions, where two formulas are claimed at each point.
BEGIN = [
    "(affine 0 0 0 (trich 1 (sum (3 1)) (sum (3 1))))",
    "(opposite 3 4)",
    "(written pend ?1 1 ?1 (cases 5 (split 6 (opposite 8 4)) (split 6 (trich 4 (trich 7 (sum (10 1)) (sum (10 1))) "
    "(sum (2 1) (8 1) (9 1))))))",
]
COLUMN = (
    "(split 8 (push 9 (fresh 10 (written {store} ?3 (cases 12 (split 13 (trich 11 (sum (16 1)) (sum (16 1)))) "
    "(split 13 (trich 11 (sum (16 1)) (sum (16 1)))))))))"
)
MARKED = [
    "(opposite 6 8)",
    "(push 8 (split 9 (cases 10)))",
    "(opposite 5 9)",
    "(split 8 (written pend ?1 2 ?1 (cases 10 (split 11 (opposite 13 9)) (split 11 (trich 9 (trich 12 (sum (15 1)) (sum (15 1))) "
    "(sum (6 1) (13 1) (14 1)))))))",
    "(split 8 (written rep1 ?1 (rd v 0) ?1 (cases 10 (split 11 (trich 9 (sum (5 1) (13 -1) (14 1)) (sum (5 -1) (13 1) (14 1)))) "
    "(split 11 (trich 9 (trich 12 (sum (15 1)) (sum (15 1))) (trich 12 (sum (15 1)) (sum (15 1))))))))",
    "(opposite 6 9)",
    COLUMN.format(store="pend ?1 2"),
    COLUMN.format(store="rep1 ?1 (rd v 0)"),
]
RETURN = ["(push 8 (split 9 (cases 10 (opposite 6 12) (opposite 7 12))))", "(opposite 5 8)"]


def moved(proof, least, by):
    """The proof where this many hypotheses more are before the one of this number. No other number in it is as great."""
    return re.sub(r"\b\d+", lambda found: str(int(found[0]) + by) if int(found[0]) >= least else found[0], proof)


def stable(actions, storing, width):
    """The proofs of what is claimed at a point before the mark, and at that after it; this many of the actions store."""
    again, other, alone = "(opposite 17 13)", SAME_CLIENT, ["(opposite 9 13)"] * (actions - storing)
    before = [kept("pend", "?3", 2, 9, 14, other)] + [kept("pend", "?3", 1, 9, 16, "(opposite 19 13)", 11)] * storing + alone
    before += [kept("pend", "?3", 1, 9, 14, again), left(9, other)]
    before = [moved(proof, 11, width - 2) for proof in before]
    before += [f"(opposite {9 + k} {11 + width})" for k in range(1, width) for _ in range(actions + 3)]
    behind = [kept("pend", "?3", 2, 9, 14, again)] + [kept("pend", "?3", 1, 9, 16, other, 11)] * storing + alone
    behind += [kept("pend", "?3", 1, 9, 14, other), left(9, other)]
    behind += [kept("rep1", "?3", "(rd v 0)", 10, 14, other)] + ["(opposite 10 13)"] * (actions + 2)
    return before, behind


def proofs(points, actions, storing, width):
    """The proofs of all conditions, in their order."""
    goal = 6 + width
    begin = BEGIN + ["(push 4 (sum (5 1)))"] * (width - 1)
    load = [f"(opposite 5 {goal})", f"(opposite 6 {goal})"] + [f"(push {goal} (sum ({goal + 1} 1)))"] * (width - 1)
    marked = [moved(proof, 8, width - 2) for proof in MARKED]
    before, behind = stable(actions, storing, width)
    return begin + load * (points - 1) + marked + RETURN + before * points + behind


def files(name, points, actions, storing, width):
    """A development with this many loads and actions, of which this many store in `pend`, and its certificate."""
    claim = "(assert (= (rd pend self) 1)" + "".join(f" (<= x (+ x {k}))" for k in range(1, width)) + ")"
    effects = ["(pend self 1)"] * storing + ["(d self 1)"] * (actions - storing)
    lines = [f"(point p{k} (load cell 0 (x) p{k + 1}) {claim})" for k in range(points - 1)]
    lines.append(f"(point p{points - 1} (load cell 0 (x) p{points}) {claim} (on next (look) (lin)))")
    lines.append(f"(point p{points} (return x) (assert (= (rd pend self) 2) (= (rd rep1 self) x)))")
    parts = ["(array cell (c 0 0))", "(aux (d 0 0))", "(action look () (= (rd pend self) 1) (pend self 2) (rep1 self (rd v 0)))"]
    parts += [f"(action act{i} () (and (<= {i} (rd op self)) (= (rd op self) 5)) {effect})" for i, effect in enumerate(effects)]
    parts += ["(invariant (tied (= (rd c 0) (rd v 0))))", "(idle)", "(body get (x)\n" + "\n".join(lines) + ")"]
    spec = f"(spec {name} (abstract (v 0 0))\n(op get () 1 (branch (and) () ((rd v 0)))))\n"
    development = f"{spec}(object {name}\n" + "\n".join(parts) + ")\n"
    entries = "\n".join(f"(proof {k} {proof})" for k, proof in enumerate(proofs(points, actions, storing, width)))
    return [development.encode(), f"(certificate {name}\n{entries})\n".encode()]


def claims():
    """Actions that leave alone what is claimed: the shortest proofs, some 3 MB."""
    return files("claims", 255, 60, 0, 6)


def stored_claims():
    """Actions that store in a column of which something is claimed: some 6 MB of proofs."""
    return files("stored_claims", 255, 60, 60, 6)


def spread_claims():
    """The same certificate with a line for each step of a proof, some 16 MB."""
    development, certificate = stored_claims()
    return [development, certificate.replace(b" (", b"\n" + b" " * 19 + b"(")]


def one_point():
    """The same number of conditions, nearly all of them of one point."""
    return files("one_point", 1, 60, 0, 1500)


def long_proofs():
    """Few conditions, with long proofs: sums of many hypotheses, most of them taken no times."""
    development, certificate = files("long_proofs", 15, 45, 45, 2)
    return [development, certificate.replace(b"(sum", b"(sum" + b" (0 0)" * 350)]


CERTIFICATES = {it.__name__: it for it in (claims, stored_claims, spread_claims, one_point, long_proofs)}
