"""Reading sources: comments, brackets, places."""
import re

APART = r"[^\s(){}.;,@\"«»]"  # what a name of antt is made of

BLANK = {
    # quoted texts, in which no comment begins, and comments; in antt a name may have -- inside, and block comments stand in each other
    ".antt": re.compile(rf"\"(?:\\.|[^\"\\])*\"|(?<!{APART})--.*|\{{-|-\}}"),
    ".rt": re.compile(r"b?\"(?:\\.|[^\"\\])*\"|b?'(?:\\.|[^'\\])'|//.*|/\*(?s:.*?)\*/"),
}


def blanked(path, text):
    """The text with its comments blanked, so that every place keeps its line."""
    spaces = lambda part: re.sub(r"[^\n]", " ", part)
    if not path.endswith(".antt"):
        return BLANK[".rt"].sub(lambda m: spaces(m[0]) if m[0].startswith("/") else m[0], text)
    found, at, depth = [], 0, 0
    while m := BLANK[".antt"].search(text, at):
        between = text[at : m.start()]
        found.append(spaces(between) if depth else between)
        if m[0] == "{-":
            depth += 1
        elif m[0] == "-}":
            depth = max(depth - 1, 0)
        elif depth:  # in a block comment only its ends mean anything
            found.append(spaces(text[m.start() : m.start() + 1]))
            at = m.start() + 1
            continue
        found.append(m[0] if m[0].startswith('"') else spaces(m[0]))
        at = m.end()
    found.append(spaces(text[at:]) if depth else text[at:])
    return "".join(found)


def declares(text, name):
    """Whether a file of antt declares a name itself."""
    return re.search(rf"^(?:(?:unfoldable|abbrev|pub|record|data)\s+)*{re.escape(name)}(?!{APART})", text, re.M) is not None


def brings(text, module, name):
    """Whether a name is a module's own in a file of antt: brought from there alone, under no other name, and not declared anew."""
    uses = re.finditer(r"^(?:unfoldable )?(?:pub )?use\s+(\S+?)\.\{([^}]*)\}", text, re.M)
    naming = [(use[1], entry.split()) for use in uses for entry in use[2].split(",") if name in entry.split()]
    return naming == [(module, [name])] and not declares(text, name)


def line(text, at):
    return text.count("\n", 0, at) + 1


def past(text, at):
    """The place after the bracket that closes the one at `at`."""
    depth = 0
    for i in range(at, len(text)):
        depth += (text[i] in "([{") - (text[i] in ")]}")
        if depth == 0:
            return i + 1
    return len(text)
