"""Mistakes of people who are new to the language or to the patterns, and what a terminal is told of them.

A row has a grade, what is mistaken, the mistake, and words of the answer: with A those that say what is wrong and what to write, with B those
that say where. A text without `specification` is a behaviour, perhaps with a `where`, of FRAME.
"""
FRAME = "specification S [a, b] : noexit\nbehaviour {}\nendspec\n"
WHERE = "P[a] where process P [x] : noexit := "
SYNC = "Write the gates at which both sides meet between `|[` and `]|`"
OPEN = "Write `;` only after a gate or `i`: remove it, or write `>>` after `exit` or a call"
TYPE = "Put `: noexit` before it, or `: exit`"
FULL = "of full LOTOS is not read here"

# Asked with `check --warn`.
IN_TEXTS = [
    ("A", "no semicolon", "a b; stop", "a `;` may be missing between `a` and it"),
    ("A", "no stop", "a; b", "B is a gate here", "Put `;` after it, and then what comes next"),
    ("A", "nothing after a semicolon", "a;", "Put a behaviour before it, as `stop`"),
    ("A", "a list between bars alone", "a; stop |a| a; stop", SYNC),
    ("A", "a list without bars", "a; stop [a] a; b; stop", SYNC),
    ("A", "a list after bars", "a; stop ||[a] a; b; stop", SYNC),
    ("A", "a list without its last bar", "a; stop |[a] a; b; stop", "Put `|` before it."),
    ("A", "a plus for a choice", "a; stop + b; stop", "Write `[]` for a choice."),
    ("A", "a blank in the sign of a choice", "a; stop [ ] b; stop", "Write `[]` for a choice, with nothing between its two signs."),
    ("A", "an arrow for a semicolon", "a -> stop", "Write `;` after a gate, as in `a; stop`."),
    ("A", "a dot for a semicolon", "a.stop", "Write `;` after an action"),
    ("A", "one sign for enabling", "a; exit > b; stop", "Write `>>` for enabling, or `[>` for disabling."),
    ("A", "a semicolon after exit", "a; exit; b; stop", OPEN),
    ("A", "a semicolon after a call", "P[a]; b; stop where process P [x] : noexit := x; stop endproc", OPEN),
    ("A", "round brackets for gates", "P(a) where process P [x] : noexit := x; stop endproc", "write the gates of a process between `[` and `]`"),
    ("A", "an equals sign for a definition", "P[a] where process P [x] : noexit = x; stop endproc", "Write `:=` after the functionality"),
    ("A", "no sign of a definition", "P[a] where process P [x] : noexit x; stop endproc", "Put `:=` before it."),
    ("A", "no functionality of a process", "P[a] where process P [x] := x; stop endproc", TYPE),
    ("A", "no functionality", "specification S [a]\nbehaviour a; stop endspec", TYPE),
    ("A", "no comma in a list", "specification S [a b] : noexit behaviour a; b; stop endspec", "a `,` may be missing between `a` and it"),
    ("A", "no comma after hide", "hide c d in c; d; a; b; stop", "a `,` may be missing between `c` and it"),
    ("A", "no endproc", WHERE + "x; stop", "`process` `P`, which begins at 2:22, has no `endproc` before it"),
    ("A", "end for endproc", WHERE + "x; stop end", "Did you mean `endproc`?"),
    ("A", "no endspec", "specification S [a] : noexit behaviour a; stop", "`specification` `S`, which begins at 1:1, has no `endspec`"),
    ("A", "a parenthesis that is not closed", "(a; stop", "`(` at 2:11 is not closed before it"),
    ("A", "a parenthesis too many", "(a; b; stop))", "Remove it, or put `(` where the group begins"),
    ("A", "a misspelt word", "specification S [a] : noexit behavoir a; stop endspec", "Did you mean `behaviour`?"),
    ("A", "a reserved word as a name", "specification S [in] : noexit behaviour stop endspec", "`in` is a reserved word", "Choose another name"),
    ("A", "a value", "a!1; stop", "Values of full LOTOS are not read here: have a gate for each value."),
    ("A", "a comment as in C", "a; stop // done", "Write a comment between `(*` and `*)`."),
    ("A", "a comment that is not closed", "a; stop (* done", "Close the comment with `*)`"),
    ("A", "a misspelt gate", "specification S [send] : noexit behaviour sned; stop endspec", "a gate in scope has a similar name: SEND"),
    ("A", "a misspelt process", "Sendr where process Sender : noexit := stop endproc", "a process that is visible here has a similar name: SENDER"),
    ("A", "a gate that was not handed on", WHERE + "b; stop endproc", "B is a gate of the specification, at 1:21", "Hand it on"),
    ("A", "a gate too few", "P[a] where process P [x, y] : noexit := x; y; stop endproc", "it is defined at 2:30 with the gates X Y"),
    ("A", "a process out of scope", "Q[a] [] " + WHERE + "Q[x] where process Q [y] : noexit := y; stop endproc endproc",
     "Q is defined at 2:75, in the `where` of P, and is not visible here", "Move its definition out"),
    ("A", "a process that is defined twice", WHERE + "x; stop endproc process P : noexit := stop endproc", "it is declared first at 2:30"),
    ("A", "one exit of several ends", "a; stop [] (b; (a; exit [] stop))", "it is `exit` because of the `exit` at 2:30", "Declare it `exit`"),
    ("A", "no exit", "specification S [a] : exit behaviour a; stop endspec", "it is `noexit` because of a `stop`", "Declare it `noexit`"),
    ("A", "an end before enabling", "a; stop >> b; stop", "End the behaviour to the left of `>>` with `exit`."),
    ("A", "a call of itself at once", WHERE + "P[x] [] x; stop endproc", "P calls itself at 2:48", "Put an action before one of the calls"),
    ("A", "a hidden gate that is in no list", "hide c in (a; c; stop ||| c; b; stop)", "warning: gate C of `hide` is offered on both sides"),
    ("A", "gates of a call that have changed places", "P[b, a] where process P [a, b] : noexit := a; b; stop endproc",
     "2:11: warning: the gates of P have changed places: its own are A, B"),
    ("A", "a process that nothing calls", "a; b; stop where process P : noexit := stop endproc", "warning: process P is never called"),
    ("B", "a word of full LOTOS", "par g in [a, b] || g; stop", "2:11: E07", FULL),
    ("B", "a value of full LOTOS", "let x: nat = 1 in a; stop", "2:22: E01", "values and guards of full LOTOS are not read here"),
]

NO_ELEMENT = "is no element; elements are <any>, <not> A, <until> SET"
LATER = "an A and later a B is: A <while> <any> B"
INPUT = "a specification is read from standard input: lotosseq "

# The words of the command, in one piece those that a shell would quote, about the system of try-terminal with the gates PUT and GET.
IN_WORDS = [
    ("A", "an element that is none", ["ever", "<eventually> GET"], "word 1, <eventually>, " + NO_ELEMENT, LATER),
    ("A", "another", ["ever", "<always> PUT"], "word 1, <always>, " + NO_ELEMENT),
    ("A", "a regular expression", ["ever", ".*"], "word 1, .*, has `.`, which no name has", LATER),
    ("A", "a comma and a blank", ["ever", "PUT, GET"], "word 1, PUT,, has a comma without a name beside it; one label of several is A,B"),
    ("A", "a formula", ["ever", "[] (PUT -> <> GET)"], "word 1, [], has `[`, which no name has", LATER),
    ("A", "a wildcard", ["ever", "<until> PUT*"], "word 2, PUT*, has `*`, which no name has; one label of several is A,B"),
    ("A", "a bar for a comma", ["ever", "<while> PUT|GET"], "word 2, PUT|GET, has `|`, which no name has; one label of several is A,B"),
    ("A", "one wrong gate of a set", ["ever", "PUT,GET GET,FOO"], "word 2, GET,FOO: FOO is no gate of the specification"),
    ("A", "a formal gate", ["cover", "--only", "take"], "TAKE is a formal gate of the process P, and stands for the gate that a call gives"),
    ("A", "an internal step", ["ever", "PUT i"], "needs --strong, with which internal steps are observed as i"),
    ("A", "an element in the place of a set", ["ever", "<until> <any>"], "word 2, <any>, is no set of labels", "any one label is <any>"),
    ("A", "nothing after an element", ["ever", "PUT <while>"], "no word comes after word 2, <while>", "after <while> comes A"),
    ("A", "no words", ["ever"], "a pattern without words matches the empty sequence alone"),
    ("A", "a misspelt element", ["ever", "<unitl> GET"], "word 1, <unitl>, may be meant as <until>"),
    ("A", "an element without its sign", ["ever", "<any"], "word 1, <any, may be meant as <any>"),
    ("A", "an element without its signs", ["ever", "any"], "word 1, any, may be meant as <any>"),
    ("A", "no blank after an element", ["ever", "<until>GET"], "word 1, <until>GET, lacks a blank after <until>"),
    ("A", "a word after an end", ["ever", "<deadlock> PUT"], "word 2, PUT, comes after an end, which is the last element"),
    ("A", "a file as an argument", ["search", "--length", "3", "PUT", "link.lotos"], INPUT + "search .. <FILE"),
    ("A", "a file after check", ["check", "link.lotos"], INPUT + "check <FILE"),
    ("A", "a misspelt gate", ["ever", "PTU"], "a gate of the specification has a similar name: PUT"),
    ("A", "a misspelt gate of a search", ["search", "--length", "3", "PTU"], "word 1, PTU, is no gate of the specification and never matches"),
    ("A", "the first only", ["ever", "<until> GET <while> <not> PUT PUT <never> PUT"], "word 1, <until>, goes to the first GET alone",
     "for any GET write: <while> <any> GET"),
    ("A", "an option of other commands", ["after", "--explain", "PUT"], "after has no --explain: it writes labels"),
    ("A", "another one", ["cover", "--explain"], "cover has no --explain: ever --explain with the words of a line shows its run"),
    ("A", "a length with ever", ["ever", "--length", "3", "PUT"], "ever has no --length: it looks for a match of any length"),
    ("A", "no length", ["search", "PUT"], "the following required arguments were not provided", "<--depth <N>|--length <N>>"),
    ("A", "a misspelt option", ["search", "--dept", "3", "PUT"], "a similar argument exists: '--depth'"),
    ("A", "a misspelt command", ["serch", "PUT"], "a similar subcommand exists: 'search'"),
    ("A", "an element after after", ["after", "<until> PUT"], "word 1, <until>, is no label; a sequence has labels alone"),
    ("B", "a set after after", ["after", "PUT,GET"], "word 1, PUT,GET, has `,`, which no name has"),
    ("B", "no number", ["search", "--depth", "x", "PUT"], "invalid value 'x' for '--depth <N>'"),
    ("B", "words of a cover", ["cover", "PUT"], "unexpected argument 'PUT' found", "Usage: lotosseq cover [OPTIONS]"),
    ("B", "a misspelt option of a graph", ["graph", "--dott"], "unexpected argument '--dott' found"),
    ("B", "a misspelt command after help", ["help", "evre"], "unrecognized subcommand 'evre'"),
]
