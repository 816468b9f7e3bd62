"""Writes conditions, as `lincheck conditions` prints them, in SMT-LIB: each as its hypotheses and its negated goal, so that `unsat`
says that it is valid. Columns are functions of whole numbers; what is in a column that was stored in is written out as cases.
"""


def read(line):
    """The lists of a line."""
    stack, items = [], []
    for word in line.replace("(", " ( ").replace(")", " ) ").split():
        if word == "(":
            stack.append(items)
            items = []
        elif word == ")":
            done, items = items, stack.pop()
            items.append(done)
        else:
            items.append(word)
    return items[0]


def number(text):
    return text if text[0] != "-" else f"(- {text[1:]})"


class Condition:
    """A condition's formulas; counts its variables and collects its columns as it writes them."""

    def __init__(self, line):
        _, _, _, _, _, _, _, (_, count), (_, *self.hypotheses), (_, self.goal) = read(line)
        self.variables, self.columns = int(count), set()

    def cell(self, column, index, bound):
        """What a column has at an index, which is written already."""
        if isinstance(column, str):
            self.columns.add(column)
            return f"(|{column}| {index})"
        if column[0] == "affine":
            return f"(+ (* {number(column[1])} {index}) {number(column[2])})"
        _, base, stored, value = column
        there = self.term(stored, bound)
        if there == index:
            return self.term(value, bound)
        return f"(ite (= {index} {there}) {self.term(value, bound)} {self.cell(base, index, bound)})"

    def term(self, it, bound):
        if isinstance(it, str):
            return f"v{it[1:]}" if it[0] == "?" else bound.get(it) or number(it)
        if it[0] == "rd":
            return self.cell(it[1], self.term(it[2], bound), bound)
        if it[0] == "*":
            return f"(* {number(it[1])} {self.term(it[2], bound)})"
        return f"({it[0]} {self.term(it[1], bound)} {self.term(it[2], bound)})"

    def formula(self, it, bound):
        head = it[0]
        if head in ("<=", "="):
            return f"({head} {self.term(it[1], bound)} {self.term(it[2], bound)})"
        if head in ("forall", "exists"):
            name = f"q{len(bound)}"
            return f"({head} (({name} Int)) {self.formula(it[2], {**bound, it[1]: name})})"
        if len(it) == 1:
            return "true" if head == "and" else "false"
        return f"({head} {' '.join(self.formula(part, bound) for part in it[1:])})"

    def written(self):
        facts = [f"(assert {self.formula(it, {})})" for it in self.hypotheses] + [f"(assert (not {self.formula(self.goal, {})}))"]
        names = [f"(declare-const v{k} Int)" for k in range(self.variables)]
        columns = [f"(declare-fun |{it}| (Int) Int)" for it in sorted(self.columns)]
        return "\n".join(names + columns + facts)


def script(lines, limit):
    """Asks for each condition among the lines, with this many seconds for each."""
    asked = [f"(push)\n{Condition(line).written()}\n(check-sat)\n(pop)" for line in lines if line.startswith("(condition ")]
    return "\n".join([f"(set-option :timeout {int(limit * 1000)})", *asked]) + "\n"
