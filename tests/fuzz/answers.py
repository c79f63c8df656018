"""What the program may answer: named statuses, each with a well-formed text (docs/SPECIFICATION.md, "Answers", "The texts")."""

import re
import signal

from .faults import LIMITS, OF_INPUT, REFUSALS
from .runs import Answer

YES, NO, UNREADABLE, NO_MEMORY, REFUSED = 0, 1, 2, 4, 5
# The statuses that each command may end with, if its files can be read.
STATUSES = {
    "check": {YES, NO, UNREADABLE, NO_MEMORY},
    "verify": {YES, REFUSED, UNREADABLE, NO_MEMORY},
    "entries": {YES, UNREADABLE, NO_MEMORY},
    "exports": {YES, UNREADABLE, NO_MEMORY},
}

NUMBER = rb"(?:0|[1-9][0-9]*)"
# A name as it is printed: visible bytes, or \x and two digits.
SHOWN = rb"(?:[!-\[\]-~]|\\x[0-9a-f][0-9a-f])*"
REGISTER = rb"(?:r(?:di|si|dx|cx|8|9|ax)|xmm[0-9]+(?:\*[2-8])?|st[01])"
PLACE = rb"(?:none|memory|stack\+" + NUMBER + rb":" + NUMBER + rb"|" + REGISTER + rb"(?:\+" + REGISTER + rb")*)"
KIND = rb"(?:NOTYPE|OBJECT|FUNC|COMMON|TLS|IFUNC)"
TYPE = rb"(?:void|scalar|pointer|enum|struct|union|array|vector|function)"

EXPORT = re.compile(
    NUMBER + rb" " + SHOWN + rb" " + KIND + rb" " + NUMBER
    + rb"(?: untyped| is " + TYPE + rb"| params (?:-|" + PLACE + rb"(?:," + PLACE + rb")*) result " + PLACE + rb")"
)
ENTRY = re.compile(NUMBER + rb" " + NUMBER + rb" [0-9a-f]+")
STEP = rb"(?:result|target|element|param " + NUMBER + rb"|member " + SHOWN + rb")"
PATH = STEP + rb"(?: / " + STEP + rb")*"
ROW = re.compile(rb"(?:X[1-6]|L1[0-4]|L[1-9]) " + SHOWN + rb"(?: " + PATH + rb")?: [ -~]+")
FAULT = re.compile(rb"unreadable (old|new|rules|certificate|library) (" + NUMBER + rb") ([A-Za-z0-9]+) (" + NUMBER + rb")\n")
REFUSAL = re.compile(rb"refused (" + NUMBER + rb") ([A-Za-z]+) (" + NUMBER + rb")\n")
PAST_LIMIT = re.compile(rb"abi: past the limit on ([a-z ]+) \(LIMITS in abi\(1\)\)")
CERTIFICATE = re.compile(
    rb"yes 2\nold [0-9a-f]{64}\nnew [0-9a-f]{64}\nrules [0-9a-f]{64}\n"
    rb"(?:bind N N\n)*(?:alike old N N\n)*(?:alike new N N\n)*(?:pair N N (?:direct|pointer)\n)*end\n".replace(b"N", NUMBER)
)


def lines(text: bytes) -> list[bytes] | None:
    """The lines of a text, each of which ends with a line feed."""
    if text and not text.endswith(b"\n"):
        return None
    return text.split(b"\n")[:-1]


def are_all(text: bytes, form: re.Pattern[bytes]) -> bool:
    found = lines(text)
    return found is not None and all(form.fullmatch(line) for line in found)


def fault_of(answer: Answer) -> tuple[str, int, int] | None:
    """Which input is unreadable, the number of the fault, and its place."""
    found = FAULT.fullmatch(answer.output)
    if found is None:
        return None
    which, number = found[1].decode(), int(found[2])
    if OF_INPUT[which].get(number) != found[3].decode():
        return None
    return which, number, int(found[4])


def is_refusal(text: bytes) -> bool:
    found = REFUSAL.fullmatch(text)
    return found is not None and REFUSALS.get(int(found[1])) == found[2].decode()


def is_text(command: str, status: int, answer: Answer) -> bool:
    """Whether the text is one that the command may print with the status."""
    match status, command:
        case 2, _:
            return fault_of(answer) is not None
        case 4, _:
            return answer.output == b""
        case 5, _:
            return is_refusal(answer.output)
        case 1, _:
            return answer.output.startswith(b"no\n") and are_all(answer.output[3:], ROW)
        case 0, "check":
            return CERTIFICATE.fullmatch(answer.output) is not None
        case 0, "verify":
            return answer.output == b"accepted\n"
        case 0, "entries":
            return are_all(answer.output, ENTRY)
        case 0, "exports":
            return are_all(answer.output, EXPORT)
    return False


def is_on_memory(line: bytes) -> bool:
    """Whether the line says that memory ran out, or which limit would be passed."""
    past = PAST_LIMIT.fullmatch(line)
    return line == b"abi: out of memory" or (past is not None and past[1].decode() in LIMITS)


def are_sentences(status: int, errors: bytes, command: str) -> bool:
    """Whether standard error goes with the status: one sentence if an input is unreadable, at most one if memory ran out or a limit
    would be passed, one on a refused certificate, notes with the answers of `check` and `verify`, and otherwise nothing."""
    found = lines(errors)
    if found is None or not all(line.startswith(b"abi: ") for line in found):
        return False
    if status == UNREADABLE:
        return len(found) == 1
    if status == NO_MEMORY:
        return len(found) <= 1 and all(is_on_memory(line) for line in found)
    if status == REFUSED:
        return len(found) >= 1
    return not found or command in ("check", "verify")


def complaint(command: str, answer: Answer) -> str | None:
    """What is wrong with the answer of a command; None if nothing is."""
    if answer.status in (-signal.SIGPROF, -signal.SIGKILL):
        return f"{command} did not end in time"
    if answer.status < 0:
        return f"{command} ended by signal {-answer.status}"
    if answer.status not in STATUSES[command]:
        return f"{command} ended with status {answer.status}"
    if not is_text(command, answer.status, answer):
        return f"{command} printed what does not go with status {answer.status}: {answer.output[:200]!r}"
    if not are_sentences(answer.status, answer.errors, command):
        return f"{command} told what does not go with status {answer.status}: {answer.errors[:200]!r}"
    return None
