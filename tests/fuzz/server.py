"""A process of the program that answers one command after the other, by again.c."""

import mmap
import os
import struct
from pathlib import Path

# The files of again.c, and how long the shared ones are.
GO, DONE, REQUESTS, RECORDS = 100, 101, 102, 103
MOST_BYTES = 1 << 20
NUMBER = struct.Struct("=I")
RECORD = struct.Struct("=iII")

# The exit status of a run, and how long its two outputs were at its end.
Record = tuple[int, int, int]


def text_of(commands: list[tuple[str, ...]]) -> bytes:
    """Commands as again.c reads them."""
    return b"".join(b"".join(word.encode() + b"\0" for word in words) + b"\0" for words in commands)


def shared(name: str) -> int:
    """A new file that two processes share."""
    file = os.open(name, os.O_RDWR | os.O_CREAT | os.O_TRUNC)
    os.ftruncate(file, MOST_BYTES)
    return file


class Server:
    def __init__(self, program: str, again: Path, output: int, errors: int) -> None:
        asked, self.go = os.pipe()
        self.done, replied = os.pipe()
        nothing, requests, records = os.open(os.devnull, os.O_RDONLY), shared("requests"), shared("records")
        files = ((nothing, 0), (output, 1), (errors, 2), (asked, GO), (replied, DONE), (requests, REQUESTS), (records, RECORDS))
        actions = [(os.POSIX_SPAWN_DUP2, source, target) for source, target in files]
        environment = {**os.environ, "LD_PRELOAD": str(again)}
        self.process = os.posix_spawn(program, [program], environment, file_actions=actions)
        self.runs = 0
        self.requests = mmap.mmap(requests, MOST_BYTES)
        self.kept = mmap.mmap(records, MOST_BYTES)
        for file in (nothing, asked, replied, requests, records):
            os.close(file)

    def records(self, commands: list[tuple[str, ...]]) -> list[Record]:
        """The records of the commands; fewer if the process ended at the one after them."""
        text = text_of(commands)
        self.requests[: len(text)] = text
        NUMBER.pack_into(self.kept, 0, 0)
        os.write(self.go, NUMBER.pack(len(commands)))
        os.read(self.done, 1)
        count = NUMBER.unpack_from(self.kept, 0)[0]
        self.runs += count
        table = self.kept[NUMBER.size : NUMBER.size + RECORD.size * count]
        return [(status, output, errors) for status, output, errors in RECORD.iter_unpack(table)]

    def ended(self) -> int:
        """Ends the process, unless it has ended, and returns how it ended."""
        os.close(self.go)
        os.close(self.done)
        self.requests.close()
        self.kept.close()
        return os.waitstatus_to_exitcode(os.waitpid(self.process, 0)[1])
