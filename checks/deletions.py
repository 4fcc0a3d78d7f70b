# For each token of checks/every_production.adb: where the text is at fault without it, by the grammar as docs/LANGUAGE.md states it.
# Writes checks/deletions.txt: start and length of the token in bytes, and line:column of the least token that no derivation allows
# (or of the end of the last token), or "none" where the text without the token has a tree. A recogniser by Earley's method.
import re
import pathlib

here = pathlib.Path(__file__).parent
document = (here.parent / "docs" / "LANGUAGE.md").read_text()
block = document.split("## Grammar", 1)[1].split("```", 2)[1]
rules = {}
name = None
for line in block.splitlines():
    head = re.match(r"(\w+)\s+= (.*)", line)
    if head:
        name = head.group(1)
        rules[name] = head.group(2)
    elif line.strip():
        rules[name] += " " + line.strip()
operators = ['"and"', '"or"', '"xor"', '"and" "then"', '"or" "else"']
rules["expression"] = "relation | " + " | ".join(f"relation {o} relation {{{o} relation}}" for o in operators)
rules["statement"] = rules["statement"].replace('any token but "select"', "OTHER")

productions = {}


def define(symbol, body):
    productions.setdefault(symbol, []).append(tuple(body))


def read(text):
    pieces = re.findall(r'"[^"]*"|\w+|[\[\]{}()|]', text)
    position = 0
    fresh = [0]

    def alternatives(closing):
        nonlocal position
        found = [[]]
        while position < len(pieces) and pieces[position] != closing:
            piece = pieces[position]
            position += 1
            if piece == "|":
                found.append([])
            elif piece in "([{":
                inner = alternatives({"(": ")", "[": "]", "{": "}"}[piece])
                position += 1
                symbol = f"{name}#{len(productions)}#{fresh[0]}"
                fresh[0] += 1
                for body in inner:
                    define(symbol, body)
                if piece == "[":
                    define(symbol, [])
                if piece == "{":
                    star = symbol + "*"
                    define(star, [])
                    define(star, [star, symbol])
                    symbol = star
                found[-1].append(symbol)
            else:
                found[-1].append(piece)
        return found

    return alternatives(None)


for name, text in rules.items():
    for body in read(text):
        define(name, body)

words = {p[1:-1] for bodies in productions.values() for b in bodies for p in b if p.startswith('"') and p[1:-1].isalpha()}
words |= set("""abort abs abstract accept access aliased all and array at begin body case constant declare delay delta digits do else elsif end entry
exception exit for function generic goto if in interface is limited loop mod new not null of or others out overriding package pragma private procedure
protected raise range record rem renames requeue return reverse select separate some subtype synchronized tagged task terminate then type until use when
while with xor""".split())


def tokens_of(text):
    found = []
    for m in re.finditer(r'[A-Za-z][A-Za-z0-9_]*|[0-9][0-9_]*|"[^"\n]*"|=>|\.\.|:=|/=|<=|>=|[(),;:.\'+\-*/=<>|]', text):
        piece = m.group(0)
        if piece[0].isalpha():
            kind = f'"{piece.lower()}"' if piece.lower() in words else "NAME"
        elif piece[0].isdigit():
            kind = "NUMBER"
        elif piece[0] == '"':
            kind = "LABEL"
        else:
            kind = f'"{piece}"'
        found.append((kind, m.start(), m.end()))
    return found


def allows(terminal, kind):
    return terminal == kind or terminal == "OTHER" and kind != '"select"'


def fault(kinds):
    """The number of the first token that no derivation allows, the count of tokens where they have no tree, or None."""
    goal = ("program'", ("program",))
    sets = [dict()]
    chart = {(goal, 0, 0)}
    agenda = [(goal, 0, 0)]
    states = [None] * (len(kinds) + 1)
    for at in range(len(kinds) + 1):
        agenda = list(chart)
        seen = set(agenda)
        waiting = {}
        done_here = set()
        following = set()
        states[at] = waiting
        while agenda:
            item = agenda.pop()
            (head, body), dot, origin = item
            if dot < len(body):
                symbol = body[dot]
                if symbol in productions:
                    waiting.setdefault(symbol, []).append(item)
                    new = [((symbol, b), 0, at) for b in productions[symbol]]
                    if symbol in done_here:
                        new.append(((head, body), dot + 1, origin))
                elif at < len(kinds) and allows(symbol, kinds[at]):
                    following.add(((head, body), dot + 1, origin))
                    continue
                else:
                    continue
            else:
                if origin == at:
                    done_here.add(head)
                new = [((h, b), d + 1, o) for (h, b), d, o in states[origin].get(head, [])]
            for n in new:
                if n not in seen:
                    seen.add(n)
                    agenda.append(n)
        if at == len(kinds):
            return None if (goal, 1, 0) in seen else at
        if not following:
            return at
        chart = following


def position(text, offset):
    line = text.count("\n", 0, offset) + 1
    return f"{line}:{offset - (text.rfind(chr(10), 0, offset) + 1) + 1}"


text = (here / "every_production.adb").read_text()
tokens = tokens_of(text)
first = fault([k for k, _, _ in tokens])
assert first is None, f"the sample has no tree: {tokens[first]} at {position(text, tokens[first][1])}"
rows = []
for removed, (_, start, end) in enumerate(tokens):
    rest = tokens[:removed] + tokens[removed + 1:]
    found = fault([k for k, _, _ in rest])
    if found is None:
        place = "none"
    elif found == len(rest):
        place = position(text, rest[-1][2])
    else:
        place = position(text, rest[found][1])
    rows.append(f"{start} {end - start} {place}\n")
(here / "deletions.txt").write_text("".join(rows))
print(len(rows), "tokens")
