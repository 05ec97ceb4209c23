"""Writes texts into the folder that is named: those for `lexing`, `reading`, `unifying`, `comparing`, `ruled`, `exploring`, `booking` or
`solving`. None is over 1,048,576 bytes."""
import pathlib
import random
import sys

LIMIT = 1_048_576
DECLARATIONS = """\
(* a voter's device (* and its key *) *)
free c, ska, skb [private].
fun aenc/3, pk/1.
reduc adec(aenc(x,y,pk(z)),z) -> x.
let Resp(pka) =
  out(c,pk(ska)); new nb; new r;
  in(c,y);
  let (na,=pka) = adec(y,skb) in
  out(c,aenc((na,nb,pk(skb)),r,pka))
  else if na = nb then !^3 (out(c,na) | 0 + in(c,x)).
"""


def filled(before, piece, after):
    """As many pieces as fit."""
    return before + piece * ((LIMIT - len(before) - len(after)) // len(piece)) + after


LEXING = {
    "protocol": filled("", DECLARATIONS, ""),
    "names": filled("", "a_rather_long_name another'1 x y free reduc trace_equiv\n", ""),
    "signs": filled("", "()[],;./=|+!^->", ""),
    "blanks": filled("", " \t\r\n    ", ""),
    "comment": filled("(*", " any bytes ( * )\n", "*)"),
}
READING = {
    "protocol": filled("", DECLARATIONS, "query trace_equiv(Resp(pk(ska)), Resp(pk(skb)))."),
    "parallel": filled("query trace_equiv(0", "|0", ", 0)."),
    "choice": filled("query trace_equiv(0", "+0", ", 0)."),
    "comment": filled("(*", " any bytes ( * )\n", "*)query trace_equiv(0, 0)."),
    "rules": filled("reduc f(x) -> x", ";\nfst((x,y)) -> x; sdec(senc(x,y),y) -> x", ".\nquery trace_equiv(0, 0)."),
    "brackets": filled("query trace_equiv(0", "|" + "(" * 150 + "0" + ")" * 150, ", 0)."),
}



def message(leaves):
    """A message of 20 nodes over ten names, of one shape, the first names deepest."""
    level = [f"{leaf} " for leaf in leaves]
    while len(level) > 1:
        level = [left + right + "f0 " for left, right in zip(level[::2], level[1::2])] + level[len(level) // 2 * 2 :]
    return level[0] + "h1 "


def frames(last_leaf, other_last_leaf, last, other_last):
    """Two frames of 1,000 messages, whose last leaves are given by number, and two last messages."""
    def frame(leaf):
        return "".join(message(["a0", "a1", "a2", f"a{i}"] + ["a3"] * 5 + [leaf(i)]) for i in range(3, 1002))
    return f"{frame(last_leaf)}{last}\n{frame(other_last_leaf)}{other_last}"


OPEN = (lambda i: f"a{i}", lambda i: f"a{i}")
HIDDEN = (lambda i: f"n{i}", lambda i: f"n{i + 5000}")
SHORT = message(["a0"] * 9 + ["n1"])
COMPARING = {
    "open": frames(*OPEN, SHORT, SHORT),
    "open_last": frames(*OPEN, message(["a0"] * 10), SHORT),
    "hidden": frames(*HIDDEN, SHORT, SHORT),
    "hidden_last": frames(*HIDDEN, message(["a0"] * 10), SHORT),
}

# symbols: pair, hash, senc, aenc, pk, sign, vk
def mixed(names, last):
    """A hundred messages of all symbols, half of whose keys come out, and a last one. `names` gives a private name."""
    messages = []
    for i in range(20):
        secret, key, opens = names(4 * i), names(4 * i + 1), names(4 * i + 2)
        messages += [
            f"{secret}a{i} s0 {key}s2 ",
            f"{secret}{names(4 * i + 3)}{opens}s4 s3 ",
            f"{secret}s1 {opens}s5 ",
            f"{key}{opens}s4 s0 " if i % 2 else f"{opens}s6 ",
            f"{opens}" if i % 3 else f"{secret}s1 s1 ",
        ]
    return "".join(messages) + last


def chain(names, count, last):
    """Each key under the next, and then the last key: so each key opens the message before it."""
    links = "".join(f"{names(i)}{names(i + 1)}s2 " for i in range(count))
    return f"{links}{names(count)}{last}"


def private(offset):
    return lambda i: f"n{i + offset} "


RULED = {
    "mixed": f"{mixed(private(0), 'a0 s1 ')}\n{mixed(private(5000), 'a0 s1 ')}",
    "mixed_last": f"{mixed(private(0), 'a0 s1 ')}\n{mixed(private(5000), 'n9999 ')}",
    "chain": f"{chain(private(0), 50, 'n0 ')}\n{chain(private(5000), 50, 'n5000 ')}",
    "chain_last": f"{chain(private(0), 50, 'n0 ')}\n{chain(private(5000), 50, 'n9999 ')}",
    "long_chain": f"{chain(private(0), 500, 'n0 ')}\n{chain(private(5000), 500, 'n5000 ')}",
}

# names of cases: trees whose last or first leaves are two names; last leaves that are a variable and a name; variables
# against doubled ones; the same, and a pair that fails behind them
UNIFYING = {"last": "last", "first": "first", "variable": "variable", "doubled": "doubled", "clash": "clash"}

# names of cases: a table without a stop, and one that stops at its last look
EXPLORING = {"none": "none", "last": "last"}

# names of cases with the number of levels: trees without a stop, with a stop at each leaf, and with one at the first leaf
BOOKING = {f"{case}{levels}": f"{case} {levels}" for case in ["kids", "stops", "first"] for levels in [12, 16, 20]}

# Scenes and asks, as words behind one another. A term is written with its symbol behind its arguments: `a` is a public name,
# `n` a private one, `v` a variable, `e` an entry, `x` a handle, and `u`, `p`, `t` are symbols over one, two and three terms.
# `M` begins a scene with a frame of this length, `V` is a variable of this level (they are numbered from 1), and what stands
# before it is the recipe and the value for `E`, an entry of this level, a composition of the last entry for `C`, a label for
# `B`, a tree and a pattern for `P`, both sides for `Q`, an equation, and the term of a target of this level for `T`. `F` is a
# free variable, and `D` ends a disequation. `S` ends an ask, whose targets go by the names of variables from this one on.
def tree(rng, depth, leaf):
    """A random tree over six symbols."""
    if depth == 0 or rng.random() < 0.15:
        return leaf()
    arity = rng.choice([1, 2, 2, 2, 3])
    return " ".join([tree(rng, depth - 1, leaf) for _ in range(arity)] + [f"{'upt'[arity - 1]}{rng.randrange(2)}"])


def wide(rng):
    """Thirty entries of many roots, and a tree over some of their values."""
    values = [tree(rng, 2, lambda: f"n{rng.randrange(40)}") for _ in range(30)]
    entries = [f"x{i} {value} E{i // 4 + 1}" for i, value in enumerate(values)]
    target = tree(rng, 3, lambda: rng.choice(values + ["a0", "a1"]))
    return ["M8", *entries, f"{target} T8", "S100"]


def deep(rng):
    """Six names that are known, and a tree over them that is 24 symbols deep."""
    entries = [f"x{i} n{i} E1" for i in range(6)]
    target = "n0"
    for i in range(24):
        target = f"n{rng.randrange(6)} {target} p{i % 2}" if i % 3 else f"{target} u0"
    return ["M1", *entries, f"{target} T1", "S100"]


def sessions(rng, recorded, disequations):
    """Entries of which some are ciphertexts over the attacker's inputs, and an input that is to be one."""
    words = ["M6", "V0", "V1", "V2", "V3", "V4"]
    for i in range(12):
        level = i // 2 + 1
        inside = lambda: rng.choice([f"v{rng.randrange(1, level + 1)}" if level < 6 else "a0", f"n{rng.randrange(6)}", "a1"])
        words.append(f"x{i} {tree(rng, 1 + i % 2, inside)} E{level}" if i % 3 else f"x{i} n{i // 3} E{level}")
        if recorded and i % 2:
            words.append(f"e{rng.randrange(1, i + 1)} v{rng.randrange(1, 6)} p{i % 4} C0")
    words += [f"v{x} {f'e{x} p1' if x % 2 else 'u1'} B0" for x in range(1, 5)]
    for i in range(disequations):
        words.append(f"F{20 + i} v{i % 5 + 1} v{20 + i} n9 p{i % 2} P0 D0" if i % 2 else f"v{i % 5 + 1} e{i % 12 + 1} P0 D0")
    wanted = rng.choice(["v10 n0 p0", "v10 v11 p1", "v10 u0", "v10 v11 a1 t1"])
    return [*words, f"v{rng.randrange(4, 6)} {wanted} Q0", "S50"]


def branching(rng):
    """Every entry is a ciphertext over an input, and two such are sought."""
    words = ["M5", "V0", "V1", "V2", "V3"]
    for i in range(8):
        words.append(f"x{i} v{i % 3 + 1} n{i % 2} p0 E{i // 2 + 2}")
    return [*words, "v10 n0 p0 v11 n1 p0 p1 T5", "S50"]


def scenes(case, count=100):
    rng = random.Random(7)
    return " ".join(" ".join(case(rng)) for _ in range(count)) + " "


SOLVING = {
    "wide": scenes(wide),
    "deep": scenes(deep),
    "sessions": scenes(lambda rng: sessions(rng, False, 0)),
    "recorded": scenes(lambda rng: sessions(rng, True, 0)),
    "disequations": scenes(lambda rng: sessions(rng, True, 8)),
    "branching": scenes(branching),
}

folder = pathlib.Path(sys.argv[2])
# names of cases: eight senders and receivers, a word of one input and one output in turn, and one of two and two
SEMANTICS = {"settle": "settle", "word": "word", "doubled": "doubled"}

for name, text in {"lexing": LEXING, "reading": READING, "unifying": UNIFYING, "comparing": COMPARING, "ruled": RULED, "exploring": EXPLORING, "booking": BOOKING, "solving": SOLVING, "semantics": SEMANTICS}[sys.argv[1]].items():
    (folder / f"{name}.txt").write_text(text)
