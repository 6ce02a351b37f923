"""Right bodies in other words: what a function's body is turned into, so that its meaning stays.

A form takes the lines of a body, from its brace to its brace, and returns other lines, or None if it does not apply:
- `exchanged`: the branches of an `if` with an `else` change places, and its condition is negated;
- `nested`: what follows an early `return` becomes the `else` of its `if`;
- `returned`: the first branch of the last `if` returns early, and the `else` is gone;
- `divided`: an `if` with two tests that returns early becomes two of them;
- `ended`: `Ok(())` at the end is left out, since the last call returns it, or is added after the last call;
- `matched`: a `let` with an `else`, or an `if let` with an `else`, becomes a `match`;
- `reordered`: the arms of a `match` come in the opposite order;
- `flipped`: a comparison has its sides exchanged;
- `commuted`: a sum, a product, or the "and" or "or" of two plain values has its sides exchanged;
- `ordered`: two neighbouring `let` that do not need each other change places;
- `conditioned`: a condition gets a name first;
- `helped`: an argument that is computed gets a name first;
- `inlined`: a variable that is used once, in the next line, gives way to its value;
- `renamed`: a variable of a `let`, a loop or a pattern has another name;
- `named`: the value that the body returns gets a name first. It applies to nearly every body, so it is the last resort.

If several apply, the one that applies to the fewest bodies is taken, so the forms are spread. This module is not run:
`tests/right_bodies` imports it.
"""
import re
import zlib

STEP = "    "
CLOSING = re.compile(r"[)}\]]")
# a call whose result may lie in a value that nothing keeps
LENT = re.compile(r"\.(?:as_\w+|iter|trim\w*|lines|split\w*)\(")
# a value without a call, an operator or a change of anything
PLAIN = re.compile(r"[&*]?[\w.:]+")
SIDE = r"[\w.:&*]+(?:\([\w.:&* ]*\)(?:\.\w+)*)*(?:\[\w+\])?(?: as \w+)?"
# what follows a whole operand, and what may come before one
BEYOND = r"(?![\w.(\[{'\"!]| [-+*/%^<>=]| as | [&|] )"
OPENING = re.compile(r"(?:^ *|[(\[{] ?|, | = | => |\bif |\breturn |&& |\|\| |\w\| )$")
COMPARISON = re.compile(r"(?<![\w.*&!-])(%s) (==|!=|<=|>=|<|>) (%s)%s" % (SIDE, SIDE, BEYOND))
OPERAND = r"[a-z][\w.]*(?:\(\))?"
SUM = re.compile(r"(?<![\w.*&!-])(%s) ([+*]|&&|\|\|) (%s)%s" % (OPERAND, OPERAND, BEYOND.replace("<>=", "<>=&|")))
TURNED = {"==": "==", "!=": "!=", "<": ">", ">": "<", "<=": ">=", ">=": "<="}
OPPOSITE = {"==": "!=", "!=": "==", "<": ">=", ">=": "<", ">": "<=", "<=": ">"}
SIMPLE_LET = re.compile(r" *let (\w+)(?:: [^=]+)? = (.*);")
# the end of a pattern that some other arm of its `match` cannot overlap: a variant, with or without fields
VARIANT = re.compile(r"((?:[A-Z]\w*::)*[A-Z]\w*)(?:\(.*\)| \{.*\})?")


def margin(line):
    return len(line) - len(line.lstrip(" "))


def block_end(lines, start):
    """The line that closes the block whose head is in this line: the next one at its margin, if it is a brace."""
    for at in range(start + 1, len(lines)):
        if lines[at].strip() and margin(lines[at]) <= margin(lines[start]):
            return at if lines[at].lstrip().startswith("}") else None
    return None


def indented(lines, count=1):
    """The lines moved to the right by `count` steps, or to the left."""
    if count < 0:
        return [line[-count * len(STEP):] if line.strip() else line for line in lines]
    return [STEP * count + line if line.strip() else line for line in lines]


def condition(line):
    """The condition of a line that is the head of an `if` without a pattern, or None."""
    found = re.fullmatch(r" *if (.*) \{", line)
    return found[1] if found and not re.search(r"\blet\b|\{|\|[^|]+\| ", found[1]) else None


def negated(test):
    """The opposite of a condition, as one writes it."""
    single = re.fullmatch(r"(%s) (==|!=|<=|>=|<|>) (%s)" % (SIDE, SIDE), test)
    if single:
        return "%s %s %s" % (single[1], OPPOSITE[single[2]], single[3])
    if re.fullmatch(r"![\w.:]+(?:\([^()]*\))?", test):
        return test[1:]
    if re.fullmatch(r"[\w.:]+(?:\([^()]*\))?", test):
        return "!" + test
    return "!(%s)" % test


def value_of(lines):
    """The value at the end of a block's lines, if it is in one line, or None."""
    if not lines:
        return None
    last = lines[-1].strip()
    inner = min(margin(line) for line in lines if line.strip())
    is_whole = margin(lines[-1]) == inner and not CLOSING.match(last) and not last.startswith(("//", ".", "return "))
    return last if is_whole and not last.endswith((";", "{", ",")) else None


def exchanged(lines):
    for start, line in enumerate(lines):
        test, middle = condition(line), block_end(lines, start)
        if test is None or middle is None or lines[middle].strip() != "} else {":
            continue
        end = block_end(lines, middle)
        if end is None or lines[end].strip() not in ("}", "};"):
            continue
        head = " " * margin(line) + "if %s {" % negated(test)
        return (lines[:start] + [head] + lines[middle + 1:end] + [lines[middle]] + lines[start + 1:middle]
                + lines[end:])
    return None


def nested(lines):
    inner = margin(lines[0]) + len(STEP)
    for start, line in enumerate(lines):
        end = block_end(lines, start)
        if margin(line) != inner or condition(line) is None or end is None or lines[end].strip() != "}":
            continue
        value = re.fullmatch(r" *return (.*);", lines[end - 1])
        rest = lines[end + 1:-1]
        if not value or margin(lines[end - 1]) != inner + len(STEP) or not rest or rest[-1].rstrip().endswith(";"):
            continue
        while not rest[0].strip():
            rest = rest[1:]
        return (lines[:end - 1] + [" " * margin(lines[end - 1]) + value[1], " " * inner + "} else {"]
                + indented(rest) + [" " * inner + "}", lines[-1]])
    return None


def returned(lines):
    inner = margin(lines[0]) + len(STEP)
    for start, line in enumerate(lines):
        middle = block_end(lines, start)
        if margin(line) != inner or condition(line) is None or middle is None or lines[middle].strip() != "} else {":
            continue
        end, value = block_end(lines, middle), value_of(lines[start + 1:middle])
        if end != len(lines) - 2 or lines[end].strip() != "}" or value is None:
            continue
        return (lines[:middle - 1] + ["%sreturn %s;" % (" " * (inner + len(STEP)), value), " " * inner + "}"]
                + indented(lines[middle + 1:end], -1) + [lines[-1]])
    return None


def matched(lines):
    for start, line in enumerate(lines):
        at, end = margin(line), block_end(lines, start)
        found = re.fullmatch(r" *let (Some|Ok)\((\w+)\) = (.*) else \{", line)
        if found and end == start + 2 and lines[end].strip() == "};":
            other = "None" if found[1] == "Some" else "Err(_)"
            leave = lines[start + 1].strip().rstrip(";")
            return lines[:start] + [" " * at + "let %s = match %s {" % (found[2], found[3]),
                                    " " * at + STEP + "%s(%s) => %s," % found.group(1, 2, 2),
                                    " " * at + STEP + "%s => %s," % (other, leave), *lines[end:]]
        found = re.fullmatch(r" *if let (Some\(\w+\)) = ([^&|]*) \{", line)
        if found and end and lines[end].strip() == "} else {":
            last = block_end(lines, end)
            if last is None or lines[last].strip() not in ("}", "};"):
                continue
            deep = " " * at + STEP
            return [*lines[:start], " " * at + "match %s {" % found[2], deep + found[1] + " => {",
                    *indented(lines[start + 1:end]), deep + "}", deep + "None => {", *indented(lines[end + 1:last]),
                    deep + "}", *lines[last:]]
    return None


def arms(lines):
    """The arms of a match, each as its lines, or None if it is not sure that no two of them overlap."""
    found, heads = [], set()
    inner = min((margin(line) for line in lines if line.strip()), default=0)
    for line in lines:
        if margin(line) == inner and not CLOSING.match(line.lstrip()):
            pattern = line.strip().partition(" => ")[0]
            variant = VARIANT.fullmatch(pattern)
            if " => " not in line or not variant or variant[1] in heads:
                return None
            # an inner pattern may test too: it matters only if another arm has the same variant
            heads.add(variant[1])
            found.append([line])
        elif found:
            found[-1].append(line)
    return found if len(found) > 1 else None


def reordered(lines):
    for start, line in enumerate(lines):
        end = block_end(lines, start)
        if not re.search(r"\bmatch [^{}]+ \{$", line) or end is None:
            continue
        found = arms(lines[start + 1:end])
        if found and not any("//" in it[0] for it in found):
            return lines[:start + 1] + [it for arm in reversed(found) for it in arm] + lines[end:]
    return None


def flipped(lines):
    for at, line in enumerate(lines[1:-1], 1):
        if line.lstrip().startswith(("//", "invariant", "decreases", "while ")) or '"' in line:
            continue
        for found in COMPARISON.finditer(line):
            left, sign, right = found.groups()
            if not OPENING.search(line[:found.start()]) or re.fullmatch(r"\d\w*", right):
                continue
            turned = "%s %s %s" % (right, TURNED[sign], left)
            return lines[:at] + [line[:found.start(1)] + turned + line[found.end(3):]] + lines[at + 1:]
    return None


def ordered(lines):
    for at in range(1, len(lines) - 2):
        first, second = SIMPLE_LET.fullmatch(lines[at]), SIMPLE_LET.fullmatch(lines[at + 1])
        if not first or not second or margin(lines[at]) != margin(lines[at + 1]):
            continue
        values = first[2] + second[2]
        changed = set(re.findall(r"\blet mut (\w+)|&mut (\w+)", "\n".join(lines[:at])))
        changed = {it for pair in changed for it in pair if it}
        if "?" in values or "&mut" in values or first[1] == second[1] or "|" in values:
            continue
        if set(re.findall(r"\w+", values)) & {first[1], second[1], "self", *changed}:
            continue
        return [*lines[:at], lines[at + 1], lines[at], *lines[at + 2:]]
    return None


def conditioned(lines):
    for start, line in enumerate(lines):
        test = condition(line)
        if test is None or re.fullmatch(r"!?\w+", test) or "is_so" in "\n".join(lines):
            continue
        space = " " * margin(line)
        return lines[:start] + [space + "let is_so = %s;" % test, space + "if is_so {"] + lines[start + 1:]
    return None


def split_arguments(text):
    """The arguments of a call, or none if the text is not what is between its parentheses."""
    parts, depth = [""], 0
    for sign in text:
        depth += (sign in "([{") - (sign in ")]}")
        if depth < 0:
            return []
        if sign == "," and not depth:
            parts.append("")
        else:
            parts[-1] += sign
    return [part.strip() for part in parts]


def helped(lines):
    if "\n".join(lines).count("value"):
        return None
    inner = margin(lines[0]) + len(STEP)
    for at, line in enumerate(lines[1:-1], 1):
        found = re.fullmatch(r"( +)((?:let (?:mut )?\w+ = |return )?)([\w:.]+(?:::<\w+>)?)\((.*)\)(\??)(;?)", line)
        if not found or margin(line) < inner or lines[at - 1].rstrip().endswith((",", "(", "=", "[", "=>")):
            continue
        space, start, call, inside, mark, end = found.groups()
        # a line of its own, and not the beginning or the rest of a longer statement
        if lines[at + 1].strip().startswith(".") or not end and not CLOSING.match(lines[at + 1].strip()):
            continue
        parts = split_arguments(inside)
        for place, part in enumerate(parts):
            bare = part.lstrip("&")
            if PLAIN.fullmatch(part) or part.startswith("&mut") and "(" not in part:
                continue
            if not re.search(r"\w\(", bare) or re.search(r"\||\?|&mut|\{|\"", part) or LENT.search(bare):
                break
            parts[place] = "&value" if part.startswith("&") else "value"
            return [*lines[:at], "%slet value = %s;" % (space, bare),
                    "%s%s%s(%s)%s%s" % (space, start, call, ", ".join(parts), mark, end), *lines[at + 1:]]
    return None


def inlined(lines):
    for at in range(1, len(lines) - 2):
        found, following = SIMPLE_LET.fullmatch(lines[at]), lines[at + 1]
        if not found or ": " in lines[at].split(" = ")[0] or margin(following) != margin(lines[at]):
            continue
        name, value = found.groups()
        if len(re.findall(r"\b%s\b" % name, "\n".join(lines[at + 1:]))) != 1 or "{" in value or "|" in value:
            continue
        # the variable is the first thing that the next line computes
        use = re.fullmatch(r"( *(?:let \w+ = |return )?(?:[\w:]+\()*&?)%s\b([,).].*)" % name, following)
        if not use or re.match(r" *(?:while|for|loop|if|match)\b", following):
            continue
        if use[2][0] == "." or use[1].endswith("&"):
            is_kept = "(" not in value or not use[1].lstrip().startswith("let ") and not LENT.search(use[2])
            if not is_kept or not re.fullmatch(r"[\w:.]+(?:\([^()]*\)(?:\.\w+)*)*\??", value):
                continue
        return lines[:at] + [use[1] + value + use[2]] + lines[at + 2:]
    return None


def divided(lines):
    for start, line in enumerate(lines):
        test, end = condition(line), block_end(lines, start)
        if test is None or end != start + 2 or lines[end].strip() != "}":
            continue
        tests = test.split(" || ")
        is_plain = not any(it.count("(") != it.count(")") or "&&" in it for it in tests)
        if len(tests) < 2 or not is_plain or not re.fullmatch(r" *return .*;", lines[start + 1]):
            continue
        space = " " * margin(line)
        second = [space + "if %s {" % " || ".join(tests[1:]), *lines[start + 1:end + 1]]
        return [*lines[:start], space + "if %s {" % tests[0], *lines[start + 1:end + 1], *second, *lines[end + 1:]]
    return None


def ended(lines):
    inner, last = margin(lines[0]) + len(STEP), lines[-2]
    before = lines[-3]
    if margin(last) != inner:
        return None
    if last.strip() == "Ok(())" and margin(before) == inner and re.fullmatch(r" *[\w:.]+\(.*\)\?;", before):
        return [*lines[:-3], before.rstrip()[:-2], lines[-1]]
    is_push = re.fullmatch(r" *(?:push\w*|\w+\.(?:push|extend)\w*)\(.*\)", last)
    if is_push and (before.rstrip().endswith((";", "}")) or before == lines[0]):
        return [*lines[:-2], last + "?;", " " * inner + "Ok(())", lines[-1]]
    return None


def commuted(lines):
    for at, line in enumerate(lines[1:-1], 1):
        if line.lstrip().startswith(("//", "while ", "invariant")) or '"' in line:
            continue
        for found in SUM.finditer(line):
            if OPENING.search(line[:found.start()]) and found[1] != found[3]:
                turned = "%s %s %s" % (found[3], found[2], found[1])
                return [*lines[:at], line[:found.start()] + turned + line[found.end():], *lines[at + 1:]]
    return None


def names_of(text):
    """The variables of `let`, of loops and of patterns, in their order."""
    found = re.findall(r"\blet (?:mut )?(\w+)(?:: [^=]+)? = |\bfor (\w+) in |\b(?:Some|Ok|Err)\((\w+)\)(?: =>| = )",
                       text)
    names = [it for group in found for it in group if it and it != "_" and it[0].islower()]
    return list(dict.fromkeys(names))


def renamed(lines):
    inside = "\n".join(lines[1:-1])
    names = []
    for name in names_of(inside):
        # not if it is also a field, a call, or written without one in a struct
        word = r"\b%s\b" % name
        if re.search(r"\.%s|%s *[(:]|^ *%s,$|\{ (?:[\w, ]*, )?%s[ ,]" % (word, word, word, word), inside, re.M):
            continue
        if re.search(r'"[^"\n]*%s[^"\n]*"|//.*%s' % (word, word), inside):
            continue
        names.append(name)
    if not names:
        return None
    name = names[zlib.crc32(inside.encode()) % len(names)]
    return [lines[0], *re.sub(r"\b%s\b" % name, "the_" + name, inside).split("\n"), lines[-1]]


def named(lines):
    inner = margin(lines[0]) + len(STEP)
    starts = [at for at in range(1, len(lines) - 1)
              if lines[at].strip() and margin(lines[at]) == inner and not CLOSING.match(lines[at].lstrip())]
    if not starts or "outcome" in " ".join(lines):
        return None
    start, last = starts[-1], lines[-2]
    is_statement = re.match(r" *(?:(?:while|for|loop|let|return|unsafe|invariant)\b|//|\.)", lines[start])
    if last.rstrip().endswith(";") or is_statement:
        return None
    tail = [" " * inner + "let outcome = " + lines[start].lstrip()] + lines[start + 1:-1]
    tail[-1] += ";"
    return lines[:start] + tail + [" " * inner + "outcome", lines[-1]]


# the rarer a form applies, the earlier it is taken: so the forms are spread as evenly as they can be
FORMS = (commuted, divided, returned, ordered, inlined, exchanged, ended, flipped, matched, nested, helped, reordered,
         conditioned, renamed, named)


def moves(lines, new, changing):
    """Whether lines that differ name something that a call may change."""
    different = [it for pair in zip(lines, new) if pair[0] != pair[1] for it in pair]
    return bool(changing & set(re.findall(r"\w+", "\n".join(different))))


def right_bodies(lines, changing=frozenset()):
    """(name of the form, lines) of each right body, the first of which is tried. `changing` has the parameters that are
    passed to be changed: no call that may change one of them is moved."""
    found = [(form, form(lines)) for form in FORMS] if len(lines) > 2 else []
    return [(form.__name__, new) for form, new in found if new is not None and new != lines
            and not (form in (ordered, helped, commuted) and moves(lines, new, changing))]
