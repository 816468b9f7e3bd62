"""What `stress/shorts` and `stress/worlds` share: the tokens of a file, a change of them at one place, and a run of the program."""
import re
import subprocess


def tokens(text):
    return re.findall(r"[()]|[^\s();]+", re.sub(r";[^\n]*", "", text))


def end_of(words, place):
    """The place behind the item that begins at a place."""
    depth = 0
    for behind in range(place, len(words)):
        depth += {"(": 1, ")": -1}.get(words[behind], 0)
        if depth <= 0:
            return behind + 1
    return len(words)


def changed(words, chance):
    """The tokens of a file with a change at one place."""
    words = list(words)
    kind = chance.randrange(8)
    places = [place for place, word in enumerate(words) if word not in "()"]
    if kind < 4:
        place = chance.choice(places)
        alike = [word for word in words if word not in "()" and word.lstrip("-").isdigit() == words[place].lstrip("-").isdigit()]
        words[place] = chance.choice(alike)
        return words
    if kind < 7:
        place = chance.choice([place for place, word in enumerate(words) if word == "(" and 0 < place])
        end = end_of(words, place)
        words[place:end] = [] if kind < 6 else words[place:end] * 2
        return words
    place = chance.randrange(len(words) - 1)
    words[place], words[place + 1] = words[place + 1], words[place]
    return words


def run(program, *words, **more):
    return subprocess.run([program, *words], capture_output=True, text=True, errors="replace", **more)
