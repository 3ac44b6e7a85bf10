"""The words of a command, its answer and its exit status."""

import os
import re
import signal
import subprocess
import sys
from typing import Dict, List, NamedTuple, NoReturn, Optional, Sequence, Type, Union

import files
import program
from files import Failed, Input, LongInput, Output, Stretch, shown

DONE, REFUSED, FAILED = 0, 1, 2

HELP = """\
zr code  N M0 INFO PARITY CAPTURE        codes N super frames into the file CAPTURE
zr read  N M0 CAPTURE INFO PARITY        reads them back and repairs one flipped bit in each word
zr edit  N BLOCK BITS PARITY CAPTURE OUT replaces a client block and its FEC block's parity, and lists the words
zr map   C F N GROUPS WINDOW             puts data groups into the window of N places from place F on
zr unmap C F N WINDOW GROUPS             takes them out again
zr runs  C                               lists the runs of data and stuff places under the count C
zr pack  FILE KIND BODY [KIND BODY ..]   puts bodies into the archive FILE, one behind the other
zr list  FILE                            lists an archive: entry, kind, offset, length
zr unpack FILE ENTRY OUT                 takes one body out again
zr help                                  this text
zr --version                             the version

N is 1 to 8 super frames and M0, the number of the first FEC block, 0 to 127. INFO has 152915 bytes for each
super frame, PARITY 10240, and CAPTURE 175616 and 7680 more. For an edit BLOCK is 0 to 4760 N - 1, BITS has 33 bytes
(257 bits, seven zero bits) and PARITY 2048. C is 0 to 10220, F odd, N even. Where a file's size tells N, in code, read, edit
and unmap, N may be the word auto. An archive has 1 to 32 bodies of up to 4294967295 bytes each. KIND is information, parity or
capture, and ENTRY is counted from 1.

Files that are written stand last, but the FILE of pack first. One that is there already is left alone, unless --force is the
first word (zr --force edit ..): then it is replaced whole, in one step, also where it is read by the same command.
- is standard input or output.

An answer goes to standard error and begins `done`, `refused` and a number of the scope's table, or `failed`; the exit
status is then 0, 1 or 2. Only what is done writes a file.
"""


class Auto(NamedTuple):
    """How a file's size tells N: `each` bytes for `units` of them, behind `first`."""

    role: str
    each: int
    units: int
    first: int
    words: str


KINDS = ("information", "parity", "capture")

# A command's words: numbers, < what is read, > what is written. Those of pack are as many as there are bodies.
COMMANDS: Dict[str, Sequence[str]] = {
    "code": ("N", "M0", "<INFO", "<PARITY", ">CAPTURE"),
    "read": ("N", "M0", "<CAPTURE", ">INFO", ">PARITY"),
    "edit": ("N", "BLOCK", "<BITS", "<PARITY", "<CAPTURE", ">OUT"),
    "map": ("C", "F", "N", "<GROUPS", ">WINDOW"),
    "unmap": ("C", "F", "N", "<WINDOW", ">GROUPS"),
    "runs": ("C",),
    "list": ("<FILE",),
    "unpack": ("<FILE", "ENTRY", ">OUT"),
}
OF_CAPTURE = Auto("CAPTURE", 175616, 1, 7680, "175616 for each super frame and 7680 more")
AUTO: Dict[str, Auto] = {
    "code": Auto("INFO", 152915, 1, 0, "152915 for each super frame"),
    "read": OF_CAPTURE,
    "edit": OF_CAPTURE,
    "unmap": Auto("WINDOW", 257, 2, 0, "257 for each two places"),
}


def roles(name: str, words: int) -> Optional[Sequence[str]]:
    """What a command's words are, or None where it does not take so many; = is a kind."""
    if name == "pack" and words >= 3 and words % 2 == 1:
        return [">FILE", *(role for k in range(1, words // 2 + 1) for role in (f"=KIND {k}", f"<BODY {k}"))]
    taken = COMMANDS.get(name, ())
    return taken if taken and len(taken) == words else None


def kind(word: str) -> str:
    if word not in KINDS:
        raise Failed(f"KIND must be information, parity or capture, and is {shown(word)}")
    return word


def number(role: str, word: str) -> str:
    if not re.fullmatch("[0-9]+", word):
        raise Failed(f"{role} must be a whole number in decimal, and is {shown(word)}")
    return (word.lstrip("0") or "0")[:20]  # what has more digits is outside every set, and so are its first twenty


def told(auto: Auto, inputs: Sequence[Input]) -> str:
    """The N that the size of a file tells."""
    size = next(i.size for i in inputs if i.role == auto.role)
    has = f"more than {files.LONGEST}" if size is None else f"{size}"
    if size is None or size < auto.first or (size - auto.first) % auto.each:
        raise Failed(f"N cannot be told: {auto.role} has {has} bytes, and {auto.words} are wanted")
    return str((size - auto.first) // auto.each * auto.units)


class Command:
    """A command whose words are right: its numbers, and the files that it reads and writes."""

    input = Input

    def __init__(self, name: str, taken: Sequence[str], given: Sequence[str], force: bool) -> None:
        named = list(zip(taken, given))
        self.name = name
        self.auto: Optional[Auto] = AUTO.get(name) if "auto" in (word for role, word in named if role == "N") else None
        self.numbers = {role: "" if self.auto and role == "N" else number(role, word) for role, word in named if role[0] not in "<>="}
        self.kinds = [kind(word) for role, word in named if role[0] == "="]
        self.inputs = [self.input(role[1:], word) for role, word in named if role[0] == "<"]
        self.outputs = [Output(role[1:], word, force) for role, word in named if role[0] == ">"]
        for output in self.outputs:
            output.refuse_old(self.inputs)
        files.refuse_shared(self.inputs, self.outputs)

    def open(self) -> None:
        for each in self.inputs:
            each.open()
        if self.auto:
            self.numbers["N"] = told(self.auto, self.inputs)

    def run(self, start: List[str]) -> int:
        """Starts the proved program on descriptors, and delivers what it wrote where it says that it is done."""
        files.begin(self.outputs)
        answer = asked(start, [self.name, *self.numbers.values()], [*self.inputs, *self.outputs])
        if answer.startswith("refused"):
            return refused(answer)
        files.deliver(self.outputs)
        if self.name == "runs":
            say_data(answer)
        else:
            say(answer)
        return DONE

    def end(self) -> None:
        for output in self.outputs:
            output.end()


class OnArchive(Command):
    """A command on files that may be too long for memory. The program makes or reads the table of an archive, and bodies are copied here."""

    input = LongInput
    inputs: List[LongInput]

    def open(self) -> None:
        beside = [os.path.dirname(output.name) or "." for output in self.outputs if not output.poured]
        for each in self.inputs:
            each.folders[:0] = beside
        super().open()
        files.refuse_circles(self.inputs, self.outputs)


class Pack(OnArchive):
    def run(self, start: List[str]) -> int:
        files.begin(self.outputs)
        [output] = self.outputs
        entries = [word for body, k in zip(self.inputs, self.kinds) for word in (k, str(body.length))]
        answer = asked(start, ["pack"], [output], entries)
        if answer.startswith("refused"):
            return refused(answer)
        output.behind = [Stretch(body, 0, body.length) for body in self.inputs]
        size = os.fstat(output.descriptor).st_size + sum(body.length for body in self.inputs)
        files.deliver(self.outputs)
        say(f"done: {len(self.inputs)} {'entry' if len(self.inputs) == 1 else 'entries'}, {size} bytes\n")
        return DONE


class Listing(OnArchive):
    """What is no plain file is passed on to the program, which keeps the table alone."""

    def open(self) -> None:
        self.inputs[0].open_source()

    def run(self, start: List[str]) -> int:
        [file] = self.inputs
        answer = asked(start, ["list", "-"], [], fed=file) if file.is_stream() else asked(start, ["list"], [file])
        if answer.startswith("refused"):
            return refused(answer)
        say_data(answer)
        return DONE


class Unpack(OnArchive):
    def run(self, start: List[str]) -> int:
        [file], [output] = self.inputs, self.outputs
        answer = asked(start, ["list"], [file])
        if answer.startswith("refused"):
            return refused(answer)
        rows = {row[0]: row for row in (line.split() for line in answer.splitlines())}
        entry = self.numbers["ENTRY"]
        if entry not in rows:
            raise Failed(f"{shown(file.name)} has no entry {entry}: its entries are 1 to {len(rows)}")
        _, what, offset, length = rows[entry]
        files.begin(self.outputs)
        output.behind = [Stretch(file, int(offset), int(length))]
        files.deliver(self.outputs)
        say(f"done: {what}, {length} {'byte' if length == '1' else 'bytes'}\n")
        return DONE


ON_ARCHIVES: Dict[str, Type[Command]] = {"pack": Pack, "list": Listing, "unpack": Unpack}


def asked(start: List[str], words: List[str], handed: Sequence[Union[Input, Output]], more: Sequence[str] = (), fed: Optional[Input] = None) -> str:
    """What the proved program answers to some words, the files that it is handed and further words; it may be fed the bytes of a stream."""
    names = {each.descriptor: each.name for each in handed}
    line = [*start, *words, *(f"/proc/self/fd/{d}" for d in names), *more]
    process = subprocess.Popen(line, stdin=subprocess.PIPE if fed else subprocess.DEVNULL, stdout=subprocess.PIPE, stderr=subprocess.PIPE, pass_fds=list(names))
    try:
        if fed and process.stdin:
            feed(fed, process.stdin.fileno())
        said, why = process.communicate()
    except BaseException:
        process.kill()
        raise
    answer = named_in(sized_in(said, handed), names)
    if process.returncode or not re.match(r"done|refused|failed|Cm |1 ", answer):
        raise Failed(f"the program zr ended by {ending(process.returncode)}; nothing was written")
    if answer.startswith("failed"):
        what, reason = said[len("failed: ") :].partition(b",")[0].strip(), why.decode().strip().rpartition(": ")[2]
        raise Failed(f"{named_in(what, names)}: {reason}; nothing was written")
    return answer


def feed(stream: Input, to: int) -> None:
    try:
        stream.pass_on(stream.descriptor, to)
    except BrokenPipeError:
        pass  # the program has ended: how, is told where its answer is looked at


def refused(answer: str) -> int:
    say(answer)
    return REFUSED


def sized_in(said: bytes, handed: Sequence[Union[Input, Output]]) -> bytes:
    """What the program said, with the sizes of files of which it read no more than shows that they are too long."""
    for each in handed:
        if isinstance(each, Input) and each.size is not None:
            said = re.sub(rb"(/proc/self/fd/%d\) has) more than \d+ bytes" % each.descriptor, rb"\1 %d bytes" % each.size, said)
    return said


def named_in(said: bytes, handed: Dict[int, str]) -> str:
    """What the program said, with the names that it was not handed."""
    text = said.decode("utf-8", "backslashreplace")
    return re.sub(r"/proc/self/fd/(\d+)", lambda m: shown(handed.get(int(m[1]), m[0])), text)


def say(answer: str) -> None:
    """An answer. Where standard error cannot be written, the exit status still tells."""
    try:
        print(answer, end="", file=sys.stderr, flush=True)
    except (OSError, ValueError):
        pass


def say_data(text: str) -> None:
    """Runs and the help that was asked for are data: they go to standard output."""
    if 1 in files.closed:
        raise Failed("standard output is closed")
    try:
        files.write_all(1, text.encode())
    except OSError as error:
        raise Failed(f"standard output cannot be written: {error.strerror}")


def ending(status: int) -> str:
    return f"the signal {-status} ({signal.strsignal(-status)})" if status < 0 else f"status {status}, and no answer"


def done(words: Sequence[str]) -> int:
    force = words[:1] == ["--force"]
    rest = list(words[1:] if force else words)
    if rest[:1] in (["help"], ["--help"], ["-h"]):
        say_data(HELP)
        return DONE
    if rest == ["--version"]:
        say_data(f"zr {program.version()}\n")
        return DONE
    taken = roles(rest[0], len(rest) - 1) if rest else None
    if taken is None:
        raise Failed(f"no such command, or not the arguments that it takes; this is what zr takes:\n{HELP.rstrip()}")
    command = ON_ARCHIVES.get(rest[0], Command)(rest[0], taken, rest[1:], force)
    try:
        command.open()
        return command.run(program.words())
    finally:
        try:
            signal.pthread_sigmask(signal.SIG_BLOCK, files.ENDINGS)
        finally:
            command.end()


def ended(got: int, _: object) -> NoReturn:
    """A signal ends the command as an exception does, so that temporary files go; then it ends it as it would have. Others that come meanwhile change nothing."""
    for each in files.ENDINGS:
        signal.signal(each, lambda *_: None)
    raise KeyboardInterrupt(got)


def end_by(got: int) -> None:
    signal.signal(got, signal.SIG_DFL)
    os.kill(os.getpid(), got)
    signal.pthread_sigmask(signal.SIG_UNBLOCK, [got])


def start(words: Sequence[str]) -> NoReturn:
    status = FAILED
    try:
        signal.signal(signal.SIGCHLD, signal.SIG_DFL)  # where it is ignored, no program's status can be had
        files.hold_standard()
        if 2 in files.closed:
            sys.stderr = open(os.devnull, "w", encoding="utf-8")  # with none, Python would print answers among the data
        files.watch_signals()
        for each in files.ENDINGS:
            if signal.getsignal(each) != signal.SIG_IGN:
                signal.signal(each, ended)
        signal.pthread_sigmask(signal.SIG_UNBLOCK, files.ENDINGS)
        status = done(words)
    except KeyboardInterrupt as interrupt:
        end_by(interrupt.args[0] if interrupt.args else signal.SIGINT)
    except Exception as error:  # whatever it is, it must not end with 1
        say(f"failed: {error if isinstance(error, (Failed, OSError)) else repr(error)}\n")
    os._exit(status)
