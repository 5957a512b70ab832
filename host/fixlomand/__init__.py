"""The host side of the stick, and the command for people over it.

What a host needs is here: a ``Stick`` over any byte stream, its files, the
bits of AUX1 and an exception for each status. It comes from:

- ``wire``: messages made, replies read; the constants of both.
- ``errors``: an exception for each status from $80.
- ``line``: a byte stream with time limits.
- ``cio``: a ``Stick`` over any byte stream, and its files.
- ``directory``: the records of a diskette's directory.

For talking to ``play``:

- ``script``: the call script, as bytes and as readable text.
- ``play``: a running ``play``, its two ports as byte streams.
- ``toolchain``: where ``play`` comes from: proved, built, started.
- ``unproved``: ``play`` compiled without its proof.
- ``crates``, ``progress``, ``stamp``: what is proved, how far, and when.
- ``ports``: a port between a host's bytes and the calls.
- ``hosts``: two host programs at one stick, in a fixed order.

For people:

- ``command``: the words of ``./stick``, and one line for what goes wrong;
  ``words``, ``files``: what is behind a word, and files written whole.
- ``demo``, ``live`` (drawn by ``view``, noted by ``log``), ``picture``,
  ``cassette`` and ``diskette`` (the words of ``./stick tape`` and ``./stick
  disk``): what the words do; ``helps``: what ``live``, ``play``, ``tape`` and
  ``disk`` say of themselves.
- ``screen``, ``letters``, ``keys``: cells, letters and key codes.
- ``tape``, ``cas``, ``deck``: a tape's records, the CAS format, and tapes in
  files.
- ``disk``, ``atr``, ``drives``: a diskette's sectors, the ATR format, and
  diskettes in files.
- ``text``: what is told of characters and files.
"""

from .cio import ByteStream, File, Stick
from .directory import Directory, DirectoryEntry
from .errors import (
    AlreadyOpen,
    BadChain,
    BadCommand,
    BadFileName,
    BadIocb,
    BadReply,
    Checksum,
    CursorPastLastRow,
    EndOfFile,
    FileLocked,
    FileNotFound,
    NotOpen,
    NotReadable,
    NotWritable,
    PaperFull,
    PastArea,
    RecordCut,
    ScreenMode,
    StatusError,
    StickError,
    StreamEnded,
    TimedOut,
    UnknownDevice,
    UnknownTag,
)
from .wire import (
    AREA,
    DIRECTORY,
    EOL,
    FORCED,
    KEEP,
    LAST_CHARACTER,
    PIECE,
    READ,
    SUCCESS,
    WRITE,
    CallReply,
    Command,
    FetchReply,
    LoadReply,
    Refusal,
    Reply,
    Tag,
)

__version__ = "3.1.0"

__all__ = [
    "AREA",
    "DIRECTORY",
    "EOL",
    "FORCED",
    "KEEP",
    "LAST_CHARACTER",
    "PIECE",
    "READ",
    "SUCCESS",
    "WRITE",
    "AlreadyOpen",
    "BadChain",
    "BadCommand",
    "BadFileName",
    "BadIocb",
    "BadReply",
    "ByteStream",
    "CallReply",
    "Checksum",
    "Command",
    "CursorPastLastRow",
    "Directory",
    "DirectoryEntry",
    "EndOfFile",
    "FetchReply",
    "File",
    "FileLocked",
    "FileNotFound",
    "LoadReply",
    "NotOpen",
    "NotReadable",
    "NotWritable",
    "PaperFull",
    "PastArea",
    "RecordCut",
    "Refusal",
    "Reply",
    "ScreenMode",
    "StatusError",
    "Stick",
    "StickError",
    "StreamEnded",
    "Tag",
    "TimedOut",
    "UnknownDevice",
    "UnknownTag",
]
