"""What each form of a right body makes of a small body. `tests/right_bodies` compares before it tries anything."""
import right_forms

BODIES = {
    "exchanged": ("if a < b {\n    low()\n} else {\n    high()\n}", "if a >= b {\n    high()\n} else {\n    low()\n}"),
    "nested": ("if is_low(a) {\n    return low();\n}\nhigh()", "if is_low(a) {\n    low()\n} else {\n    high()\n}"),
    "returned": ("if is_low(a) {\n    low()\n} else {\n    high()\n}", "if is_low(a) {\n    return low();\n}\nhigh()"),
    "divided": ("if a < 2 || b > 3 {\n    return low();\n}\nhigh()",
                "if a < 2 {\n    return low();\n}\nif b > 3 {\n    return low();\n}\nhigh()"),
    "ended": ("text.push(a)?;\ntext.push(b)?;\nOk(())", "text.push(a)?;\ntext.push(b)"),
    "matched": ("let Some(x) = first(a) else {\n    return 0;\n};\nx + 1",
                "let x = match first(a) {\n    Some(x) => x,\n    None => return 0,\n};\nx + 1"),
    "reordered": ("match a {\n    Side::Left => {\n        low()\n    }\n    Side::Right => high(),\n}",
                  "match a {\n    Side::Right => high(),\n    Side::Left => {\n        low()\n    }\n}"),
    "flipped": ("if a.len() <= b {\n    low()\n} else {\n    high()\n}",
                "if b >= a.len() {\n    low()\n} else {\n    high()\n}"),
    "commuted": ("let c = a + b;\nc * 2", "let c = b + a;\nc * 2"),
    "ordered": ("let c = low(a);\nlet d = high(b);\nc + d * 2", "let d = high(b);\nlet c = low(a);\nc + d * 2"),
    "conditioned": ("if is_low(a) {\n    low();\n}", "let is_so = is_low(a);\nif is_so {\n    low();\n}"),
    "helped": ("Some(high(a + 1))", "let value = high(a + 1);\nSome(value)"),
    "inlined": ("let c = low(a);\nhigh(c, b)", "high(low(a), b)"),
    "renamed": ("let c = low(a);\nc + 1", "let the_c = low(a);\nthe_c + 1"),
    "named": ("low(a)", "let outcome = low(a);\noutcome"),
}
# bodies that a form has to leave as they are: with the form the meaning would change, or the text would not compile
LEFT = {
    "reordered": ["match a {\n    Some(0) => low(),\n    Some(_) => high(),\n    None => 0,\n}",
                  "match a {\n    Side::Left => low(),\n    _ => high(),\n}"],
    "ordered": ["let c = low(a);\nlet d = high(c);\nc + d * 2", "let c = read(a)?;\nlet d = read(a)?;\nc + d * 2"],
    "flipped": ["if byte == b'.' {\n    low();\n}", "if a + b == c * 2 {\n    low();\n}"],
    "commuted": ["let c = a + b * 2;\nc", "let c = a - b + d;\nc"],
    "inlined": ["let c = low(a);\nhigh(b, c)", "let c = low(a);\nhigh(c, c)"],
    "helped": ["Some(high(a)?)", "push(text, &mut high(a))"],
    "renamed": ["let len = low(a);\na.len + len"],
    "divided": ["if a < 2 || b > 3 {\n    low();\n}\nhigh()"],
}


def body(text):
    return ["{", *("    " + line for line in text.split("\n")), "}"]


def faults():
    """A line for each form that makes something else of a body than it should."""
    for form in right_forms.FORMS:
        before, after = BODIES[form.__name__]
        if form(body(before)) != body(after):
            yield "the form %s makes of its body: %s" % (form.__name__, form(body(before)))
        for text in LEFT.get(form.__name__, ()):
            if form(body(text)) is not None:
                yield "the form %s does not leave a body as it is: %s" % (form.__name__, form(body(text)))
