"""The command lines of the tools: what they take, and the texts about words that aren't understood, as the program's."""

import errno
import os
import re
import signal
import sys
import textwrap
from contextlib import contextmanager
from typing import Callable, Dict, Iterator, List, NamedTuple, NoReturn, Optional, Sequence, Tuple

from . import VERSION

try:
    import resource
except ImportError:
    # Only Unix has it; elsewhere no memory is bounded.
    resource = None  # type: ignore[assignment]

# The exit statuses: as the program's, and that of what Ctrl-C ends.
DONE, FAULT, WORDS, REFUSED = range(4)
INTERRUPTED = 130

# No line of a help has more signs.
WIDTH = 100


class Argument(NamedTuple):
    """What has to be given, or may be."""

    name: str
    help: str
    is_required: bool = True


class Option(NamedTuple):
    """What may be given behind a flag; a flag alone where there is no value's name."""

    flag: str
    value: str
    help: str

    @property
    def usage(self) -> str:
        return f"{self.flag} <{self.value}>" if self.value else self.flag


HELP = Option("-h, --help", "", "Print help")
TELL_VERSION = Option("--version", "", "Print the version")
SECONDS = Option("--seconds", "SECONDS", "Stop after SECONDS with status 1, for use on untrusted input")
MEGABYTES = Option("--megabytes", "MEGABYTES", "Stop with status 1 if more memory than MEGABYTES is needed")


class WordsError(Exception):
    """What is said of words that aren't understood."""


class Asked(WordsError):
    """What is said of words that ask for help or for the version: it goes to standard output."""

    def __init__(self, text: str, status: int):
        super().__init__(text)
        self.status = status


class CommandLine:
    """What a tool takes. A tool of this package has its version. Where it takes more words than it has arguments, these are the last
    one's, too, and stand in `more`."""

    def __init__(self, name: str, about: str, arguments: List[Argument], options: List[Option], has_version: bool = False,
                 takes_more: bool = False):
        self.name = name
        self.takes_more = takes_more
        self.more: List[str] = []
        self.about = about
        self.arguments = arguments
        self.options = {option.flag: option for option in options}
        self.has_version = has_version

    def usage(self) -> str:
        arguments = " ".join(f"<{it.name}>" if it.is_required else f"[{it.name}]" for it in self.arguments)
        return f"Usage: {self.name} {'[OPTIONS] ' if self.options else ''}{arguments}{'..' if self.takes_more else ''}"

    def help(self) -> str:
        arguments = [(f"<{it.name}>" if it.is_required else f"[{it.name}]", it.help) for it in self.arguments]
        last = [HELP, TELL_VERSION] if self.has_version else [HELP]
        options = [(option.usage, option.help) for option in [*self.options.values(), *last]]
        about = textwrap.fill(self.about, WIDTH)
        return f"{about}\n\n{self.usage()}\n\nArguments:\n{in_columns(arguments)}\nOptions:\n{in_columns(options)}"

    def refusal(self, message: str) -> str:
        """What is said of words that aren't understood."""
        return f"error: {message}\n\n{self.usage()}\n\nFor more information, try '--help'.\n"

    def fail(self, message: str) -> NoReturn:
        raise WordsError(self.refusal(message))

    def understood(self, words: List[str]) -> Dict[str, Optional[str]]:
        """What was given, by the names of arguments and values; None for what wasn't. WordsError where it isn't understood."""
        found: Dict[str, Optional[str]] = {}
        self.more = []
        places = list(self.arguments)
        rest, are_options_over = list(words), False
        while rest:
            word = rest.pop(0)
            if word == "--" and not are_options_over:
                are_options_over = True
            elif are_options_over or word == "-" or not word.startswith("-"):
                if not places and not self.takes_more:
                    self.fail(f"unexpected argument '{word}' found")
                if places:
                    found[places.pop(0).name] = word
                else:
                    self.more.append(word)
            else:
                self.read_option(word, rest, found)
        missing = [it.name for it in places if it.is_required]
        if missing:
            self.fail("the following required arguments were not provided:\n" + "\n".join(f"  <{name}>" for name in missing))
        names = [it.name for it in self.arguments] + [option.value or option.flag for option in self.options.values()]
        return {name: found.get(name) for name in names}

    def read_option(self, word: str, rest: List[str], found: Dict[str, Optional[str]]) -> None:
        """Reads an option, and its value from the same word or from the next one."""
        if word in ("-h", "--help"):
            raise Asked(self.help(), WORDS)
        if word == TELL_VERSION.flag and self.has_version:
            raise Asked(f"{self.name} {VERSION}\n", DONE)
        flag, joint, value = word.partition("=") if word.startswith("--") else (word[:2], word[2:], word[2:])
        option = self.options.get(flag)
        if option is None or (joint and not option.value):
            self.fail(f"unexpected argument '{word}' found")
        key = option.value or option.flag
        if key in found:
            self.fail(f"the argument '{option.usage}' cannot be used multiple times")
        if option.value and not joint:
            if not rest:
                self.fail(f"a value is required for '{option.usage}' but none was supplied")
            value = rest.pop(0)
        found[key] = value


def in_columns(rows: Sequence[Tuple[str, str]]) -> str:
    """Rows of two columns, the second in lines that aren't too long."""
    width = max(len(first) for first, _ in rows)
    lines = []
    for first, second in rows:
        front, *rest = textwrap.wrap(second, WIDTH - width - 4)
        lines += [f"  {first.ljust(width)}  {front}", *(" " * (width + 4) + line for line in rest)]
    return "".join(f"{line}\n" for line in lines)


def understood_or_exit(line: CommandLine) -> Dict[str, Optional[str]]:
    """What the program was given. Ends it where the words aren't understood, or ask for help or the version."""
    try:
        for word in sys.argv[1:]:
            word.encode()
        return line.understood(sys.argv[1:])
    except UnicodeEncodeError:
        text = line.refusal("invalid UTF-8 was detected in one or more arguments")
    except Asked as asked:
        sys.stdout.write(str(asked))
        sys.exit(asked.status)
    except WordsError as error:
        text = str(error)
    sys.stderr.write(text)
    sys.exit(WORDS)


class Spent(Exception):
    """Raised where the time or the memory is used up that was given."""

    def __init__(self, kind: str, why: str):
        super().__init__(why)
        self.kind = kind


class Bounds(NamedTuple):
    """How many seconds and megabytes may be used where the command line has no others; None for any."""

    seconds: Optional[int] = None
    megabytes: Optional[int] = None


# What is asked of a file that strangers may have made.
OF_STRANGERS = Bounds(10, 500)


def given_number(line: CommandLine, given: Dict[str, Optional[str]], option: Option, otherwise: Optional[int]) -> Optional[int]:
    """The number of an option. Ends the program where it is none."""
    text = given.get(option.value)
    if text is None:
        return otherwise
    if not re.fullmatch(r"[1-9][0-9]{0,6}", text):
        sys.stderr.write(line.refusal(f"invalid value '{text}' for '{option.usage}': a whole number of at least 1"))
        sys.exit(WORDS)
    return int(text)


@contextmanager
def limited(line: CommandLine, given: Dict[str, Optional[str]], bounds: Bounds = Bounds()) -> Iterator[None]:
    """Raises Spent in what is done within where it takes longer, or more memory, than is given, or than these bounds."""
    seconds = given_number(line, given, SECONDS, bounds.seconds)
    megabytes = given_number(line, given, MEGABYTES, bounds.megabytes)
    with limited_memory(megabytes, line), limited_time(seconds, line):
        yield


def raised_by(line: CommandLine, option: Option) -> str:
    """How a bound is raised."""
    return f"; '{option.usage}' allows more" if option.flag in line.options else ""


@contextmanager
def limited_time(seconds: Optional[int], line: CommandLine) -> Iterator[None]:
    """Raises Spent in what is done within where it takes longer."""
    if seconds is None or not hasattr(signal, "SIGALRM"):
        yield
        return

    def give_up(_number: int, _frame: object) -> NoReturn:
        raise Spent("time", f"not done within {seconds} second{'s' if seconds != 1 else ''}{raised_by(line, SECONDS)}")

    before = signal.signal(signal.SIGALRM, give_up)
    signal.alarm(seconds)
    try:
        yield
    finally:
        signal.alarm(0)
        signal.signal(signal.SIGALRM, before)


@contextmanager
def limited_memory(megabytes: Optional[int], line: CommandLine) -> Iterator[None]:
    """Raises Spent in what is done within where the process would have more memory."""
    if megabytes is None or resource is None:
        yield
        return
    before, most = resource.getrlimit(resource.RLIMIT_AS)
    wanted = megabytes * 1_000_000
    allowed = [wanted] + [one for one in (before, most) if one != resource.RLIM_INFINITY]
    resource.setrlimit(resource.RLIMIT_AS, (min(allowed), most))
    try:
        yield
    except MemoryError:
        resource.setrlimit(resource.RLIMIT_AS, (before, most))
        if min(allowed) < wanted:
            raise
        raise Spent("memory", f"more than {megabytes} MB are needed{raised_by(line, MEGABYTES)}") from None
    finally:
        resource.setrlimit(resource.RLIMIT_AS, (before, most))


def read_input(name: str) -> bytes:
    """The bytes of a file, or of standard input where the name is `-`. OSError where they can't be read."""
    if name == "-":
        if sys.stdin is None:
            raise OSError(errno.EBADF, "standard input is closed")
        return sys.stdin.buffer.read()
    with open(name, "rb") as file:
        return file.read()


def input_name(name: str) -> str:
    """What an input is called in messages."""
    return "standard input" if name == "-" else name


def fault(kind: str, error: Exception) -> int:
    """Tells a fault (read, write, memory) on standard error, and answers its status. A reader that has gone away is told nothing."""
    if kind == "write" and sys.stdout is not None:
        os.dup2(os.open(os.devnull, os.O_WRONLY), sys.stdout.fileno())
    if isinstance(error, BrokenPipeError):
        return FAULT
    why = str(error)
    if isinstance(error, OSError) and error.strerror:
        why = error.strerror + (f": '{os.fsdecode(error.filename)}'" if error.filename else "")
    print(f"fault: {kind}{f': {why}' if why else ''}", file=sys.stderr)
    return FAULT


def run(main: Callable[[], int]) -> NoReturn:
    """Runs a tool, and ends the program with its status. Whatever its user does, there is a message and no traceback."""
    if sys.stderr is None:
        sys.stderr = open(os.devnull, "w")
    signal.signal(signal.SIGINT, signal.default_int_handler)
    try:
        status = main()
        if sys.stdout is not None:
            sys.stdout.flush()
    except MemoryError:
        status = fault("memory", MemoryError())
    except RecursionError:
        status = fault("memory", MemoryError("it is nested too deep"))
    except BrokenPipeError as error:
        status = fault("write", error)
    except KeyboardInterrupt:
        status = INTERRUPTED
    sys.exit(status)
