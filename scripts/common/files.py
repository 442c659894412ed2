"""Files as each script reads and writes them: no more is read than the program reads, no output takes the place of an input, and an output stands whole or as before."""
import os
import stat
import sys
from collections.abc import Iterator, Mapping

from .libraries import Refusal

# as much of a file as the program reads
LONGEST = 4194304
# no line that the program prints is as long: 91 numbers of at most 40 digits
LONGEST_LINE = 65536
STANDARD_OUTPUT = "/dev/stdout"


def same(first: str, second: str) -> bool:
    """Whether two names are those of one file, by whatever links and folders they lead to it. What isn't a file on a disk holds nothing that could be lost: it is never the same."""
    try:
        one, other = os.stat(first), os.stat(second)
    except (OSError, ValueError):
        return os.path.realpath(first) == os.path.realpath(second)
    return os.path.samestat(one, other) and stat.S_ISREG(one.st_mode)


def keep_apart(inputs: Mapping[str, str], outputs: Mapping[str, str]) -> None:
    """Refuses an output that is an input or another output; the names by what they are called in the usage."""
    before = dict(inputs)
    for word, path in outputs.items():
        for other, name in before.items():
            if same(path, name):
                shown = "standard output" if path == STANDARD_OUTPUT else f"{word} {path}"
                raise Refusal(f"{shown} is the same file as {other} {name}: an output needs a file of its own", 2)
        before[word] = path


def read_bytes(path: str) -> bytes:
    """A file of at most as many bytes as the program reads."""
    with open(path, "rb") as file:
        data = file.read(LONGEST + 1)
    if len(data) > LONGEST:
        raise Refusal(f"{path} is longer than {LONGEST} bytes, and no file of the tool is")
    return data


def lines_of(path: str) -> Iterator[str]:
    """The lines of a file one by one, of which there may be any number."""
    with open(path, "rb") as file:
        while line := file.readline(LONGEST_LINE + 1):
            if len(line) > LONGEST_LINE:
                raise Refusal(f"{path} has a line of more than {LONGEST_LINE} bytes, and no line of the tool has")
            yield line.decode("ascii", "replace").rstrip("\r\n")


def write(path: str, text: str | bytes) -> None:
    """Writes a file beside its place and then renames it, so that the file stands whole or as it was. Links to it stay; a device or a pipe is written to."""
    data = text.encode() if isinstance(text, str) else text
    target = os.path.realpath(path)
    try:
        if os.path.exists(target) and not os.path.isfile(target):
            with open(target, "wb") as file:
                file.write(data)
            return
        replace(target, data)
    except OSError as fault:
        raise OSError(fault.errno, fault.strerror, path) from fault


def put(path: str | None, text: str) -> None:
    """Writes a file, or to standard output where none is named."""
    if path:
        write(path, text)
    else:
        sys.stdout.write(text)


def replace(target: str, data: bytes) -> None:
    """Puts a new file into the place of this one."""
    if os.path.exists(target) and not os.access(target, os.W_OK):
        raise PermissionError(13, "Permission denied", target)
    beside = f"{target}.{os.getpid()}.part"
    with open(beside, "xb") as file:
        try:
            if os.path.exists(target):
                os.fchmod(file.fileno(), stat.S_IMODE(os.stat(target).st_mode))
            file.write(data)
            file.flush()
            os.fsync(file.fileno())
            os.replace(beside, target)
        except BaseException:
            os.unlink(beside)
            raise
