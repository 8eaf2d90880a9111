"""A proof file without its routine answers: those that only search stand in the list at the end, not as declarations."""
import re

from rattle_tools import PLACE_COMMENT, Antt

ROUTINE = "search needs"
SPEC = re.compile(r'^pub (?P<name>\S+)-spec : [^\n]*\n(?P=name)-spec =\s+tie\.close\s+\(tie\.spec\b', re.M)


def listed(text):
    """(start, end, words): what stands behind the `=` up to the last bracket, and the answers handed to `tie.spec`, names or terms in brackets.

    None where the file has no such list."""
    found = SPEC.search(text)
    if not found:
        return None
    words, at, start, depth = [], found.end(), None, 1
    while at < len(text):
        c = text[at]
        if c == "(":
            depth += 1
            if depth == 2:
                start = at
        elif c == ")":
            depth -= 1
            if depth == 1:
                words.append(text[start:at + 1])
                start = None
            if depth == 0:
                if start is not None:
                    words.append(text[start:at])
                return text.index("-spec =", found.start()) + len("-spec ="), at, words
        elif depth == 1 and c.isspace():
            if start is not None:
                words.append(text[start:at])
                start = None
        elif depth == 1 and start is None:
            start = at
        at += 1
    return None


def filled(words, indent, width):
    """The words as lines, as many on each as the width allows."""
    lines = [indent]
    for word in words:
        if len(lines[-1]) + 1 + len(word) > width and lines[-1].strip():
            lines.append(indent)
        lines[-1] += word if lines[-1] == indent else " " + word
    return lines


def own_comments(d):
    return [c for c in d.comments if not PLACE_COMMENT.match(c)]


def is_routine(d):
    return (re.match(r'\S+ : tie\.Need-', d.signature[0]) and len(d.signature) == 1 and not own_comments(d) and not d.unfolding
            and d.answer().strip() == ROUTINE and d.head() is not None)


def shortened(text, width=180):
    """The text with each answer that only searches written into the list, and the list laid out anew."""
    place = listed(text)
    if not place:
        return text
    start, end, words = place
    routine = {d.name: d for d in Antt(text).declarations if d.name in words and is_routine(d)}
    body = text[:start] + text[end:]
    for name in list(routine):
        if len(re.findall(rf'(?<![^\s(){{}};,]){re.escape(name)}(?![^\s(){{}};,])', body)) != 2:    # its signature and its clause
            del routine[name]
    words = [f"(λ {' '.join(routine[w].head())}. {ROUTINE})" if w in routine else w for w in words]
    line = " tie.close (tie.spec " + " ".join(words)
    if start - text.rindex("\n", 0, start) + len(line) > width:
        line = "\n    tie.close\n    (tie.spec\n" + "\n".join(filled(words, "    ", width))
    text = text[:start] + line + text[end:]
    for d in routine.values():
        block = "\n".join(d.text()) + "\n"
        at = text.index(block)
        text = text[:at] + text[at + len(block):].lstrip("\n")
    return re.sub(r'\n{3,}', '\n\n', text)
