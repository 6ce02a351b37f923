"""The words of the standard library that contracts use most, each with a sentence; contracts link to them."""

STANDARD = [
    ("requires", "what has to hold when the call is made; without it the function can be called with any arguments"),
    ("ensures", "what holds when the call returns. The word after it names the clause; proofs cite the name"),
    ("result", "the value that the function returns"),
    ("x.now, x.old, x.new", "the value behind a `&`; and behind a `&mut`, before the call and after it"),
    ("xs.items", "the elements of a `Vec`, as a list"),
    ("P → Q, P ↔ Q", "if P then Q; P if and only if Q"),
    ("P × Q, P ⊎ Q, ¬ P", "P and Q; P or Q; not P"),
    ("(x : T) → P, (x : T) × P", "P for every x of the type T; some x of the type T with P"),
    ("x ≡ y, x ≢ y", "x and y are equal; they are not"),
    ("λ x. e", "the function of x with the value e"),
    ("[], x ∷ xs, xs ++ ys", "the empty list; xs with x before it; two lists, one after the other"),
    ("IfOk r P", "if r is `Ok(x)`, then P holds of x; nothing is said of an error"),
    ("OnOk r P", "if r is `Ok`, then P holds"),
    ("IsOkAnd r P", "r is `Ok(x)`, and P holds of x"),
    ("IfErr r P", "if r is `Err(e)`, then P holds of e"),
    ("IsOk r, IsErr r", "r is `Ok`; r is an error"),
    ("IfSome o P", "if o is `Some(x)`, then P holds of x"),
    ("IfNone o P", "if o is `None`, then P holds"),
    ("IsSome o, IsNone o", "o has a value; it has none"),
    ("MatchOption o P Q", "P if o is `None`; Q of the value of o if it has one"),
    ("IsTrue b", "the `bool` b is true"),
    ("All P xs, Any P xs", "P holds of every element of xs; of at least one"),
    ("AllPairs P xs", "P x y holds if x comes before y in xs"),
    ("Contains xs x", "x is an element of xs"),
    ("IsPermutation xs ys", "xs has the elements of ys, each as often, in any order"),
    ("map f xs, length xs, reverse xs", "f of each element; the number of elements; the elements backwards"),
    ("take n xs, drop n xs", "the first n elements; the elements after them"),
    ("string_bytes s", "the bytes of a `String`, as a list of numbers"),
    ("codes \"..\"", "the characters of a literal, as numbers"),
    ("decimal n", "the digits of n as bytes"),
    ("IsUtf8 bytes", "the bytes are valid UTF-8"),
    ("ℕ, List T, Bool", "the natural numbers; the lists of T; true and false"),
]


def anchors():
    """{word: anchor of its row}."""
    found = {}
    for number, (words, _) in enumerate(STANDARD):
        for form in words.split(", "):
            name = form.split()[0]
            if name.isidentifier() and len(name) > 1 and name not in ("result",) or name == "ℕ":
                found.setdefault(name, "word-%d" % (number + 1))
    return found
