"""The developments that bench/run measures: some 100,000 conditions each, as `lincheck conditions` prints them.

Each function of DEVELOPMENTS answers the bytes of one file. Nothing says that their conditions are valid.
"""


def development(name, columns, auxiliaries, actions, invariant, bodies):
    """A development whose operations have no argument and one reply, by their bodies' names and texts."""
    operations = "".join(f"  (op {op} () 1 (branch (and) ((v 0 (+ (rd v 0) 1))) ((rd v 0))))\n" for op, _ in bodies)
    parts = [f"(array cell {columns})", f"(aux {auxiliaries})", *actions, f"(invariant {invariant})", "(idle)"]
    parts += [f"(body {op} (x y)\n{points})" for op, points in bodies]
    return (f"(spec {name} (abstract (v 0 0))\n{operations})\n(object {name}\n" + "\n".join(parts) + ")\n").encode()


def wide_assertions():
    """Many assertions at each point, which many actions have to keep: some 150 MB of text, most of it hypotheses."""
    points, width, count = 96, 16, 62
    actions = [
        f"(action act{i} (p) (and (= (rd pend self) 1) (<= {i} p)) (c self (+ (rd c {i}) p)) (d{i % 8} p {i}))"
        for i in range(count)
    ]
    asserts = " ".join(
        f"(=> (<= (rd c (+ self {k})) x) (<= (+ (rd d{k % 8} self) y) (* 3 (rd c (+ {k} (rd c {k}))))))" for k in range(width)
    )
    lines = [f"(point p{k} (load cell {k} (x) p{k + 1}) (assert {asserts}))" for k in range(points - 1)]
    lines.append(f"(point p{points - 1} (return x) (assert {asserts}))")
    auxiliaries = " ".join(f"(d{i} 0 0)" for i in range(8))
    return development("wide", "(c 0 0)", auxiliaries, actions, "(tied (<= 0 (rd v 0)))", [("inc", "\n".join(lines))])


def marks():
    """Six marks at each edge, each under a condition: 64 paths of an edge, with what the marks ask for; some 30 MB."""
    points = 97
    riders = " ".join(f"(when (<= x {i}) (lin-other (+ x {i}) inc))" for i in range(6))
    lines = [
        f"(point p{k} (store cell {k} (x) p{k + 1}) (assert (= (rd pend self) 1)) (on next (act) {riders}))"
        for k in range(points)
    ]
    lines.append(f"(point p{points} (return x) (assert (= (rd rep1 self) x)))")
    actions = ["(action act () (= (rd pend self) 1) (c 0 (+ (rd c 0) 1)))"]
    return development("marks", "(c 0 0)", "", actions, "(tied (<= 0 (rd v 0)))", [("inc", "\n".join(lines))])


DEVELOPMENTS = {it.__name__: it for it in (wide_assertions, marks)}
