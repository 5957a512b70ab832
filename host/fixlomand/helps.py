"""What the words ``live``, ``play``, ``tape``, ``disk`` and ``doctor`` of the
command say of themselves."""

LIVE_HELP = """\
stick live [--speed N] [--log FILE] [--tape FILE] [--disk N=FILE]..: the stick
in this terminal

Each port has a pseudo-terminal, named in the first line: a host opens it as it
would a serial port. Below are the screen, what each port does, the tape, the
diskettes and the paper.

  --speed N    ticks of each port in a second, 1 to 1000000; 20000 if not given
  --log FILE   writes what each port does. A line that begins with # has the
               seconds, the port, and the message in words or its status by
               name; under it are the calls. stick play FILE plays it again.
  --tape FILE  the tape of C: a TAPE of 33000 bytes or, by its name, a .cas
               file; if there is none it begins blank. After each CLOSE that
               wrote on the tape, and at the end, it is written as a new file
               that is then renamed. Without --tape the tape begins blank, and
               is not kept.
  --disk N=FILE
               the diskette in drive N, D1 to D4: an IMAGE of 92160 bytes or an
               .atr file, as stick disk has them. It is read once, at the
               beginning, and never written: the stick only reads diskettes.
               Given several times it fills several drives; a drive without
               one is blank.

Keys are those of the stick's keyboard, with Shift and Ctrl as typed. The stick
keeps one key: what is typed faster than a host reads waits here, in order.
  Return, Backspace, Tab, Esc, arrows   as they are called
  F1 inverse   F2 unlock   F3 shift lock   F4 control lock
  F5 end of file   F6 clear
These are for you:
  F7           saves the paper as text: paper-1.txt, paper-2.txt, ..
  F8           saves the picture of the screen: picture-1.png, picture-2.png, ..
               both in the folder where the command was started
  Ctrl-C, F10  quit
"""

PLAY_HELP = """\
stick play SCRIPT: plays a call script and shows the answers

SCRIPT is a file, or - for standard input: one op a line; # begins a comment.

  fresh               a fresh start; there is one before the first op
  take PORT BYTES     offers bytes to a port, one by one
  tick PORT [x N]     ticks a port; with x, at most N times, while it runs on
  give PORT [x N]     takes the next byte of a port's reply; with x, N times
  press CODE          presses a key
  lend BUFFER LENGTH  from now on a buffer is lent with its first LENGTH bytes
  write BUFFER AT BYTES
                      writes bytes into a buffer from byte AT on: no call
  dump [tape]         shows all numbers, and screen and paper as text; with
                      tape, the tape's records and where its head stands
  doctor N            repairs diskette N, and shows what was changed: no call
  raw BYTES           bytes of the script as they are: no op, or a part of one

PORT is 0 or 1 (2 to 255 can be tried: the stick refuses them). BYTES and CODE
are hexadecimal, 00 to FF. N is 0 to 65535, of a diskette 0 to 3, D1 to D4 (up
to 255 can be tried). LENGTH and AT are 0 to 16777215. BUFFER is 0 or area, 1 or
screen, 2 or paper, 3 or state, 4 or tape, 6 or images (the four diskettes, D1
first, 92160 bytes each); state cannot be written.

To LOAD "E:" and an EOL at 0:
  take 0 11 05 00 00 00 45 3A 9B
  tick 0
  give 0 x 4

stick live --log FILE writes such a script.
"""

TAPE_HELP = """\
stick tape WORD ..: tapes in files

  stick tape import FILE.cas TAPE [--file N]     a CAS file becomes a tape
  stick tape export TAPE FILE.cas                a tape becomes a CAS file
  stick tape list TAPE                           shows each record
  stick tape check TAPE                          looks for bad records
  stick tape read TAPE OUT [--file N] [--text]   what a host reads
  stick tape make TAPE FILE                      what a host writes

A TAPE is a file of 33000 bytes, 250 records of 132: $55, $55, a control byte
($FC full, $FA partial, $FE end), 128 data bytes, a checksum. Wherever a TAPE is
read it may be a .cas file, a cassette image in the CAS format. Files are
written as new ones that are then renamed: an older one stays until then.
Import, export, list and check look at the files alone; read and make are hosts
at the stick, which is proved and built first.

stick tape WORD --help tells more. stick live --tape FILE puts a tape in.
"""

IMPORT_HELP = """\
stick tape import FILE.cas TAPE [--file N]: a CAS file becomes a tape

Each data chunk, of 132 bytes, is a record; what is behind the last record of
the TAPE becomes zero. Any gap and any baud number is taken, and the text of
FUJI is skipped. Refused are a data chunk of another length, the chunks fsk and
pwm?, which are signals and not records, unknown types, a chunk that is cut
short, and more than 250 records. Records that would read as $8F are taken, and
named; so is a tape without an end record.

  --file N   takes the Nth file alone, from 1 on: OPEN always begins at record
             0, so that of several files a host reads only the first
"""

EXPORT_HELP = """\
stick tape export TAPE FILE.cas: a tape becomes a CAS file

Written are the records through the last end record, at 600 baud, after a gap
of 20000 ms before the first and 3000 ms before each other. A tape without an
end record is written through its last record, and you are told. FILE.cas may
be -, for standard output.
"""

LIST_HELP = """\
stick tape list TAPE: shows each record of a TAPE or .cas file

Of each record its kind, how many characters it has, whether its checksum is
right, and its text; where each file begins and ends; of a .cas file also the
gap before the record in ms, and the baud number. A record that says "reads as
$8F" is bad, and why is told. In the text an EOL ends a line, and characters
in inverse video are shown plain.
"""

CHECK_HELP = """\
stick tape check TAPE: looks for bad records in a TAPE or .cas file

Names each record that reads as $8F, a file without an end record, and more
records than a tape has. The end status is 0 if there is nothing to name, else
1. What nothing reads is not judged: the two $55, an end record's data, and the
unused bytes of a partial record; only the checksum covers them.
"""

READ_HELP = """\
stick tape read TAPE OUT [--file N] [--text]: what a host reads of a tape

Opens C on the stick, reads to the end of the file, and writes what came to
OUT, or - for standard output. At a bad record ($8F) it ends: OUT has what was
read before, the place is told, and the end status is 1.

  --file N   reads the Nth file, from 1 on, as if it were alone on the tape
  --text     EOLs become newlines; other bytes above $7F, which are characters
             in inverse video, are written without the high bit, and you are
             told how many; bytes up to $7F stay as they are
"""

MAKE_HELP = """\
stick tape make TAPE FILE: what a host writes to a tape

Opens C on the stick, writes the bytes of FILE, or - for standard input, and
closes it. The TAPE (or .cas file) is new: behind the end record it is blank.
FILE has at most 31872 bytes: for more the stick answers $90, and no TAPE is
written. For a text whose lines are to end with EOL:
  tr '\\n' '\\233' <FILE | stick tape make TAPE -
"""

DISK_HELP = """\
stick disk WORD ..: diskettes in files

  stick disk import FILE.atr IMAGE          an ATR file becomes an image
  stick disk export IMAGE FILE.atr          an image becomes an ATR file
  stick disk list IMAGE [PATTERN]           the directory, as a host reads it
  stick disk read IMAGE NAME OUT [--text]   a file, as a host reads it
  stick disk make IMAGE FILE.. [--text]     a diskette of files

An IMAGE is a file of 92160 bytes, 720 sectors of 128 as DOS 2.0S writes them
(single density; others call such a file .xfd). Wherever an IMAGE is read it may
be an .atr file. Diskettes of other sizes are refused, by their names. Files are
written as new ones that are then renamed: an older one stays until then.
Import, export and make look at the files alone; list and read are hosts at the
stick, which is proved and built first. What is wrong with a diskette, stick
doctor tells and repairs.

stick disk WORD --help tells more. stick live --disk N=FILE puts a diskette in.
"""

DISK_IMPORT_HELP = """\
stick disk import FILE.atr IMAGE: an ATR file becomes an image

FILE.atr has a header of 16 bytes (96 02, the number of paragraphs of 16 bytes,
the bytes of a sector), then 720 sectors of 128 bytes. A file of the sectors
alone (.xfd) is taken as it is. Refused are 1040 sectors (enhanced density),
sectors of 256 bytes (double density), other sizes, a file that is cut short or
too long, and what is no ATR file. A file on the diskette whose sectors do not
hang together, so that it reads as $A4, is taken, and named. IMAGE may be -, for
standard output.
"""

DISK_EXPORT_HELP = """\
stick disk export IMAGE FILE.atr: an image becomes an ATR file

The header says 720 sectors of 128 bytes, and no flags. FILE.atr may be -, for
standard output. A file on the diskette that reads as $A4 is named.
"""

DISK_LIST_HELP = """\
stick disk list IMAGE [PATTERN]: the directory, as a host reads it

Opens the directory of D1 on the stick and writes its records: * if the file is
locked, its name, its extension, how many sectors it has; last the free sectors.
PATTERN is a file name in capitals in which ? is any character and * the rest of
the name or of the extension; without one it is *.*, all files. Your shell
takes * and ? for itself, unless they are in quotes:
  stick disk list IMAGE '*.DAT'
"""

DISK_READ_HELP = """\
stick disk read IMAGE NAME OUT [--text]: a file, as a host reads it

Opens D1:NAME on the stick, reads to the end of the file, and writes what came
to OUT, or - for standard output. NAME is in capitals, and may have * and ?: the
first file that matches is read. Where the sectors of the file do not hang
together ($A4) it ends: OUT has what was read before, the sector is told, and
the end status is 1.

  --text     EOLs become newlines; other bytes above $7F, which are characters
             in inverse video, are written without the high bit, and you are
             told how many; bytes up to $7F stay as they are
"""

DISK_MAKE_HELP = """\
stick disk make IMAGE FILE.. [--text]: a diskette of files

Each FILE goes on a new diskette by its own name, in capitals: up to 8 letters
and digits, and maybe a dot and up to 3 more. Refused are other names, the same
name twice, more than 64 files, and more than fit 707 sectors of 125 characters.
Without a FILE the diskette is empty. It has no boot program. IMAGE is written
as an ATR file if its name ends in .atr.

  --text     newlines become EOLs
"""

DOCTOR_HELP = """\
stick doctor IMAGE [--write [--force]]: what is wrong with a diskette
stick doctor [IMAGE] --undo LIST: takes a repair back

Gives a diskette, an IMAGE of 92160 bytes or an .atr file, to the doctor of the
stick, which is proved and built first, and tells what it would change: in
words, file by file; byte by byte (sector, place, old, new); and as a map of the
720 sectors. A file is cut before the first sector that is reserved, another
file's or its own already, above 719, of another file by its number, or with a
data count above 125; a file that begins with such a one is deleted. Then the
sector counts, the free count and the map are set right. IMAGE may be -, for
standard input. Nothing is written, unless you say so:

  --write      makes the changes. The image as it was is kept as IMAGE.old and
               the list as IMAGE.list (IMAGE.old.2 and IMAGE.list.2, and so on,
               where there is one already), and only then IMAGE is replaced by
               a new file, in one step. Of an .atr file the header stays.
  --force      with --write, for a diskette that looks like another system's:
               byte 0 of sector 360 is not 2, or more than half of the files
               would be cut or deleted. Another system's diskette would be
               mutilated.
  --undo LIST  takes the changes of a LIST back, if every byte of them is still
               the new one; else nothing is written. The image is the one that
               the LIST names, beside the LIST, or the IMAGE that is given.

In the map # is a reserved sector, . a free one, ! one that a file was cut
before or that was cut off; a letter, digit, + or = is a file's. NO_COLOR in the
environment turns its colours off.

The end status is 0 if the diskette is sound, or the changes are made or taken
back; 1 if there are changes and they are not made; 2 if something is wrong with
the words or files, so that nothing is done.
"""

HELPS = {
    "live": LIVE_HELP,
    "play": PLAY_HELP,
    "tape": TAPE_HELP,
    "tape import": IMPORT_HELP,
    "tape export": EXPORT_HELP,
    "tape list": LIST_HELP,
    "tape check": CHECK_HELP,
    "tape read": READ_HELP,
    "tape make": MAKE_HELP,
    "disk": DISK_HELP,
    "disk import": DISK_IMPORT_HELP,
    "disk export": DISK_EXPORT_HELP,
    "disk list": DISK_LIST_HELP,
    "disk read": DISK_READ_HELP,
    "disk make": DISK_MAKE_HELP,
    "doctor": DOCTOR_HELP,
}
