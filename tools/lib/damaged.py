"""Correct texts and rows of words, and what damage makes of them; for `tools/hostile`."""
import re

# ---- correct texts

BEHAVIOURS = [
    ("a, b", "exit", "a; b; exit", ""),
    ("a, b", "noexit", "stop", ""),
    ("a", "noexit", "a; stop", ""),
    ("a, b", "noexit", "a; stop [] a; b; stop", ""),
    ("a, b", "noexit", "a; stop ||| b; stop", ""),
    ("a, b", "exit", "a; exit [> b; stop", ""),
    ("a, b", "exit", "exit ||| a; exit", ""),
    ("a, b", "noexit", "i; i; a; stop", ""),
    ("a, b", "noexit", "hide a in a; b; stop [] b; stop", ""),
    ("a, b", "noexit", "a; stop ||| b; stop |[a]| a; b; stop", ""),
    ("a, b", "noexit", "(a; exit ||| b; exit) >> (i; a; stop [] b; stop)", ""),
    ("a, b, c", "exit", "a; exit || (a; exit [] b; exit) |[]| (hide c in c; exit)", ""),
    ("a, b", "noexit", "P[a,a]", "process P [x, y] : noexit := x; stop |[x]| y; x; stop endproc"),
    ("a", "noexit", "P[a]", "process P [x] : noexit := x; exit >> P[x] endproc"),
    ("a", "noexit", "P[a] || Q[a]", "process P [x] : noexit := x; stop endproc process Q [x] : noexit := x; Q[x] endproc"),
    (
        "a",
        "noexit",
        "P[a]",
        "process P [x] : noexit := Q[x] where process Q [y] : noexit := y; P[y] endproc endproc\n"
        "process Q [x, y] : noexit := x; y; stop endproc",
    ),
    (
        "put, get",
        "noexit",
        "hide send, ack in\n  (Sender[put, send, ack] |[send, ack]| Medium[send, get, ack]) (* two of them *)",
        "process Sender [put, send, ack] : noexit := put; Sending[put, send, ack]\n"
        "where process Sending [put, send, ack] : noexit := send; (ack; Sender[put, send, ack] [] i; Sending[put, send, ack])\n"
        "endproc endproc\n"
        "process Medium [take, give, ack] : noexit :=\n"
        "take; (give; ack; Medium[take, give, ack] [] i; Medium[take, give, ack]) endproc",
    ),
    ("", "noexit", "P [> Q", "process P : noexit := i; P endproc process Q : noexit := exit >> stop endproc"),
    (
        "a, b_1",
        "exit",
        "(P[a] ||| P[b_1]) |[a, a]| R[a]",
        "process P [x] : exit := i; x; exit [] x; i; exit endproc process R [x] : exit := x; exit [] i; exit [] exit endproc",
    ),
    ("a", "noexit", "T[a]", "process T [x] : noexit := (((x; (i; (T[x])) [] (stop)))) endproc"),
]


def correct(behaviour):
    gates, kind, body, rest = behaviour
    gates = f" [{gates}]" if gates else ""
    rest = f"\nwhere\n{rest}" if rest else ""
    return f"specification S{gates} : {kind}\nbehaviour\n  {body}{rest}\nendspec\n".encode()


TEXTS = [correct(behaviour) for behaviour in BEHAVIOURS]
TOKEN = re.compile(rb"\(\*.*?\*\)|[A-Za-z][A-Za-z0-9_]*|:=|\|\|\||\|\||\|\[|\[\]|\[>|>>|\s+|.", re.S)
TOKENS = [
    *(b"specification endspec behaviour behavior process endproc where stop exit noexit hide in i".split()),
    *(b"accept choice let par library type".split()),
    *(b"; : := , ( ) [ ] [] [> >> |[ || ||| |".split()),
    *(b"(* *) (*) = > * _ 1 a b c x y P Q R S Sender exit1 a_1".split()),
]
ODD = [bytes([n]) for n in (0, 1, 8, 9, 10, 11, 12, 13, 14, 27, 127, 128, 160, 194, 239, 254, 255)]
ODD += ["\u00e4", "\u0130", "\u212a", "\u0131", "\u017f", "\U0001f600", "\u2028", "\ufeff", "\uff1b"]
ODD = [odd if isinstance(odd, bytes) else odd.encode() for odd in ODD]


# ---- damage, of bytes and of rows of tokens or words


def damaged_bytes(rng, text):
    at = rng.randint(0, len(text))
    to = min(len(text), at + rng.choice([1, 1, 1, 2, 3, 8]))
    match rng.choice(["drop", "double", "swap", "cut", "odd", "odd", "case", "turn"]):
        case "drop":
            return text[:at] + text[to:]
        case "double":
            return text[:to] + text[at:to] + text[to:]
        case "swap":
            other = min(len(text), to + to - at)
            return text[:at] + text[to:other] + text[at:to] + text[other:]
        case "cut":
            return text[:at] if rng.random() < 0.7 else text[at:]
        case "odd":
            return text[:at] + rng.choice(ODD) + text[at if rng.random() < 0.5 else to :]
        case "case":
            return text[:at] + text[at:to].swapcase() + text[to:]
        case "turn":
            return text[:at] + text[at:to][::-1] + text[to:]


def damaged_row(rng, row, others, most):
    """Parts exchanged, dropped, doubled, put in, or a section repeated, up to so many parts."""
    if not row:
        return [rng.choice(others)]
    row, one, other = list(row), rng.randrange(len(row)), rng.randrange(len(row))
    match rng.choice(["exchange", "exchange", "other", "other", "drop", "double", "insert", "repeat", "section"]):
        case "exchange":
            row[one], row[other] = row[other], row[one]
        case "other":
            row[one] = rng.choice(others)
        case "drop":
            del row[one]
        case "double":
            row.insert(one, row[one])
        case "insert":
            row.insert(one, rng.choice(others))
        case "repeat":
            length = rng.randint(1, min(12, len(row) - one))
            row[one:one] = row[one : one + length] * rng.randint(1, max(1, most // length))
        case "section":
            first, last = sorted((one, other))
            part = row[first : last + 1]
            del row[first : last + 1]
            place = rng.randint(0, len(row))
            row[place:place] = part
    return row


KINDS = [rb"[A-Za-z][A-Za-z0-9_]*", rb"exit|noexit|stop|i", rb"\|\|\||\|\||\[\]|\[>|>>|;", rb"[^A-Za-z\s].*"]
KINDS = [re.compile(kind) for kind in KINDS]


def damaged_kind(rng, text):
    """A token in the place of another of its kind, or as it stands elsewhere: names, ends, operators, marks."""
    tokens, kind = TOKEN.findall(text), rng.choice([KINDS[0], *KINDS])
    places = [n for n, token in enumerate(tokens) if kind.fullmatch(token)]
    if places:
        tokens[rng.choice(places)] = tokens[rng.choice(places)]
    return b"".join(tokens)


def damaged_text(rng):
    text = rng.choice(TEXTS)
    for _ in range(rng.choice([1, 1, 1, 2, 3])):
        way = rng.random()
        if way < 0.4:
            text = damaged_kind(rng, text)
        elif way < 0.65:
            text = damaged_bytes(rng, text)
        else:
            tokens = TOKEN.findall(text)
            parts = [n for n, token in enumerate(tokens) if not token.isspace()]
            row = damaged_row(rng, [tokens[n] for n in parts], TOKENS, rng.choice([2, 5, 40, 900]))
            if len(row) == len(parts) and rng.random() < 0.7:
                for n, token in zip(parts, row):
                    tokens[n] = token
                text = b"".join(tokens)
            else:
                text = rng.choice([b" ", b" ", b"\n", b" (* *)"]).join(row)
    if rng.random() < 0.002:
        text += rng.choice([b" ", b"\n", b"(", b"a;", b"(* ", b"\xff", b"(**)"]) * rng.choice([300_000, 1_048_576])
    return text[:3_000_000]


# ---- words

WORDS = [
    "search --depth 3 A B exit",
    "search --depth 2 <until> <deadlock>",
    "search --depth 4 --explain <while> <any>",
    "search --depth 3 --strong <until> i <while> <any>",
    "search --depth 4 --terms 3 <any> <any>",
    "search --depth 4 --limit 2 <while> <any>",
    "search --depth 3 --explain --after A\xa0B <while> <any>",
    "search --depth 3 --after B\xa0:\xa0i\xa0B <while> A",
    "search --depth 3 --strong --after i\xa0A <any> <while> B <deadlock>",
    "search --depth 3 --after <empty> <while> B <until> A",
    "search --depth 3 --explain A,B <while> <not> B,exit <until> A,exit",
    "search --depth 3 --strong <not> i,A <until> <not> B",
    "search --depth=2 --limit=1000000000 --terms=1000000 <any>",
    "search --depth 255 --terms 40 --limit 5 A A A",
    "search --depth 255 --terms 40 --limit 5 <while> <any>",
    "search --depth 200 --terms 20 --limit 3 --explain <while> <any>",
    "search --depth 255 --terms 10 A B A B",
    "search --depth 0",
    "search --length 2 --explain <while> <any>",
    "search --length 3 --strong --terms 20 <until> i <while> <any>",
    "search --length 255 --terms 20 --limit 4 <while> <any>",
    "search --length 3 --explain --after A\xa0B <while> <any>",
    "search --length 4 <until> <deadlock>",
    "search --length 3 <until> <refuses> A,B",
    "search --depth 4 --strong --explain <while> <any> <refuses> <not> i",
    "search --depth 3 A <refuses> <any>",
    "search --depth 3 A <until> <never> B",
    "search --length=1 --depth=1 A",
    "search --length 256 A",
    "search --depth 1 -- A",
    "search A --depth 1",
    "search --depth 3 --hide A --explain <while> <any>",
    "search --length 3 --only A,B --strong <until> i <while> <any>",
    "search --length 2 --hide=a,b <any>",
    "after",
    "after A",
    "after a B exit",
    "after A\xa0B A",
    "after --strong i A i B",
    "after --strong --terms 2 A A",
    "after --terms=1 B",
    "after --progress A B A B A B",
    "after --only B B",
    "after --hide A,a --strong i B",
    "compare",
    "compare --within",
    "compare --strong --within --states 3",
    "compare --terms=2 --hide A,B",
    "compare --only=a --progress",
    "compare --hide B --strong --brief",
    "check",
    "search --help",
    "check --help",
    "after --help",
    "compare --help",
    "help search",
    "--help",
]
OTHERS = (
    "search check after compare help --within --states --help -h --depth --length --limit --terms --after --explain --strong --known -- - --depth=1 --depth= 0 1 3 4 255 256 -1 "
    "--hide --only --hide=A,B --only= "
    "+2 007 99999999999999999999 1e3 0x1 1000000 1000001 1000000000 1000000001 A B a exit EXIT i I <any> <until> <while> "
    "<deadlock> <refuses> <livelock> <forever> <never> <ANY> <empty> <foo> A-B A_1 1A _A <any <any>> <not> A,B A,A i,A A, ,A A,,B , A,<any> "
    "\u00e4 \u017f \u212a A\xa0B A\xa0\xa0B i\xa0A A\xa0:\xa0A : <empty>\xa0:\xa0i"
).split(" ") + [""]
ELEMENTS = "A B a exit EXIT i I C A,B b,exit,b <any> <not> <until> <while> <deadlock> <refuses> <ANY> <Not> <Until> <WHILE> <Never>".split(" ")


def row_of(words):
    return [word.replace("\xa0", " ").encode() for word in words]


def may_take_long(words):
    """Whether a row may ask for a search that has many prefixes, many terms or many long lines."""
    shown = [word.decode(errors="replace").lower() for word in words]
    numbers = [re.search(r"[0-9]+$", word) for word in shown]
    if not any(found and int(found[0]) in range(5, 256) for found in numbers):
        return False
    text = " ".join(shown)
    few = re.search(r"--terms[ =]([0-9]|[1-4][0-9]) ", text + " ") and re.search(r"--limit[ =][0-9] ", text + " ")
    pattern = [word for word in shown if word.startswith("<")]
    if not few:
        return "--terms" not in text or bool(pattern) or len(shown) > 20
    return len(shown) > 20 or "after" in text or pattern not in ([], ["<while>", "<any>"])


def damaged_words(rng):
    row = row_of(rng.choice(WORDS).split(" "))
    kept = 3 if row[:1] == [b"search"] and row[1] in (b"--depth", b"--length") and rng.random() < 0.75 else 0
    kept, row = row[:kept], row[kept:]
    for _ in range(rng.choice([1, 1, 2, 3])):
        if rng.random() < 0.4 and row:
            at = rng.randrange(len(row))
            row[at] = damaged_bytes(rng, row[at])
        else:
            row = damaged_row(rng, row, row_of(rng.choice([OTHERS, ELEMENTS])), rng.choice([2, 5, 20, 300]))
    row = [word.replace(b"\0", b"") for word in kept + row]
    return damaged_words(rng) if may_take_long(row) else row


def plain_pair_words(rng):
    """A correct row for a text of two specifications."""
    return row_of(rng.choice(["compare", "compare --within", "compare --strong"]).split(" ") + "--terms 50 --states 50".split(" "))


def plain_words(rng):
    """A correct row for a damaged text."""
    return row_of(
        rng.choice(
            [
                "search --depth 1 A",
                "search --depth 3 --limit 20 --terms 50 <until> <deadlock>",
                "search --depth 3 --limit 20 --terms 50 --explain <while> <any>",
                "search --depth 3 --limit 20 --terms 50 --strong <until> exit",
                "search --depth 255 --limit 3 --terms 20 --explain <while> <any>",
                "search --depth 255 --limit 3 --terms 20 A A B",
            ]
        ).split(" ")
    )
