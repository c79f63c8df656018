"""Random rule files, and certificates with random changes."""

import random

SECTIONS = ("suppress_function", "suppress_variable", "suppress_type")
KEYS = (
    "label", "name", "name_regexp", "name_not_regexp", "symbol_name", "symbol_name_regexp", "symbol_version",
    "symbol_version_regexp", "soname_regexp", "type_kind", "accessed_through", "drop", "file_name_regexp",
)  # fmt: skip
WORDS = ("struct", "union", "enum", "typedef", "builtin", "direct", "pointer", "f", "node", "shape", "V1", "size_t", "int", "é")
PIECES = (
    "a", "b", "node", "_", ".", "^", "$", "|", "(", ")", "(?:", "(?i)", "(?-u)", "[", "]", "[^a]", "[a-z]", "[[:alpha:]]",
    "\\w", "\\d", "\\s", "\\W", "\\pL", "\\p{Greek}", "\\b", "\\B", "\\A", "\\z", "*", "+", "?", "*?", "+?", "??", "{2}",
    "\\x41", "\\u00e9", "\\", "é",
    "(?P<n>", "&&", "~~", "--", "(?s)", "(?x)", " ", "#",
)  # fmt: skip
ENDS = ("\n", "\n", "\n", "\r\n", "", "\n\n")
BYTES = (b"\0", b"\xff", b"\xc3", b"\xed\xa0\x80", b"\xef\xbb\xbf", b"\r", b"\t", b" ", b"=", b"[", b"]", b";", b"#", b"\n")


def pattern(rng: random.Random) -> str:
    made = "".join(rng.choice(PIECES) for _ in range(rng.choice((1, 2, 4, 8, 16, 60))))
    if rng.randrange(12) == 0:
        made = "(" * rng.choice((10, 100, 249, 250, 255)) + made
    return made[: rng.choice((255, 256, 257, 300))]


def value_for(rng: random.Random, key: str) -> str:
    if "regexp" in key:
        return pattern(rng)
    return rng.choice(WORDS)


def property_line(rng: random.Random) -> str:
    key = rng.choice(KEYS)
    return rng.choice(("", " ", "\t")) + key + rng.choice((" = ", "=", "  =\t")) + value_for(rng, key)


def rule_line(rng: random.Random) -> str:
    choice = rng.randrange(20)
    if choice < 6:
        return f"[{rng.choice(SECTIONS)}]"
    if choice < 17:
        return property_line(rng)
    return rng.choice(("", "# a remark", "; a remark", "lonely", "[]", "[ suppress_type ]", "= a", "name ="))


def rules(rng: random.Random) -> bytes:
    """A rule file, sound or not. Its first line is usually the head of a section."""
    first = f"[{rng.choice(SECTIONS)}]\n" if rng.randrange(8) else ""
    lines = [rule_line(rng) + rng.choice(ENDS) for _ in range(rng.choice((1, 2, 3, 6, 12)))]
    text = bytearray((first + "".join(lines)).encode())
    if rng.randrange(4) == 0 and text:
        at = rng.randrange(len(text))
        text[at : at + rng.randrange(2)] = rng.choice(BYTES)
    return bytes(text)


def other_number(rng: random.Random, word: bytes) -> bytes:
    """Another number for a line of a certificate, or a malformed one."""
    old = int(word)
    numbers = (old + 1, max(old - 1, 0), 0, rng.randrange(300), 2**32 - 1, 2**32, 2**64 - 1, 2**64, 10**40)
    made = str(rng.choice(numbers)).encode()
    return rng.choice((made, made, made, b"0" + made, b"+" + made, made + b"x", b""))


def change_line(rng: random.Random, line: bytes) -> bytes:
    words = line.split(b" ")
    at = rng.randrange(len(words))
    if words[at].isdigit():
        words[at] = other_number(rng, words[at])
    elif words[at] in (b"direct", b"pointer", b"old", b"new"):
        words[at] = rng.choice((b"direct", b"pointer", b"old", b"new", b"end"))
    else:
        words[at] = words[at][:-1] + rng.choice((b"", b"0", b"f", b"g", b" "))
    return b" ".join(words)


def certificate(rng: random.Random, sound: bytes) -> bytes:
    """A certificate with lines changed, repeated, moved or left out."""
    lines = sound.split(b"\n")
    for _ in range(rng.choice((1, 1, 2, 3))):
        at = rng.randrange(len(lines))
        match rng.randrange(7):
            case 0:
                lines.insert(at, lines[rng.randrange(len(lines))])
            case 1:
                del lines[at]
            case 2:
                other = rng.randrange(len(lines))
                lines[at], lines[other] = lines[other], lines[at]
            case 3:
                lines[at] += rng.choice((b"\r", b" ", b"\0", b"\xff"))
            case _:
                lines[at] = change_line(rng, lines[at])
        if not lines:
            return b""
    text = b"\n".join(lines)
    return text[: rng.randrange(len(text) + 1)] if rng.randrange(16) == 0 else text
