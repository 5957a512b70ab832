/* fixlomand.h: the core of the Fixlomand stick, for the firmware of a board.
 *
 * The stick has two plugs, port 0 and port 1. At each a host sends messages and reads replies, byte by byte; the core
 * does what they ask with an area of memory for each port, and with a screen, a keyboard, a printer, a cassette and
 * diskettes in four drives that both ports share. The core is a library of seven functions: five calls, key translation
 * and a diskette doctor. It has no memory of its own, starts no thread, waits for nothing and calls no function of your
 * firmware, which lends it six buffers in every call, moves the bytes of the two links, scans the keys, shows the screen
 * and the paper, keeps the tape and puts in the diskettes. What the bytes of the links mean is in docs/HOSTS.md; the
 * firmware need not know it.
 *
 * The answers, and every byte that a call or the doctor leaves, are proved for every value of every argument; what is
 * said of whole requests is proved for calls after a fresh start; as long as the last section holds, "What the core
 * cannot test". Times and stack are measured, not proved (firmware/measure).
 *
 * firmware/build writes target/staticlib/libfirmware.a, for x86-64 (rt lib in crates/firmware_c makes it): link it after
 * your own objects, as in
 *     gcc -Ifirmware/include mine.c target/staticlib/libfirmware.a
 * or let firmware/install PREFIX put it (as libfixlomand.a), this header and a file for pkg-config where compilers look:
 *     gcc mine.c $(pkg-config --cflags --libs fixlomand)
 * It needs memmove and memset, and nothing else; it has no data and no bss. Calls follow the System V ABI: the code uses
 * xmm registers, and the 128 bytes below the stack pointer (red zone), so that an interrupt on the same stack must save
 * the one and step over the other.
 *
 * Numbers of two or three bytes are low byte first. $ marks hexadecimal.
 */
#ifndef FIXLOMAND_H
#define FIXLOMAND_H

#include <stddef.h>
#include <stdint.h>

#ifdef __cplusplus
extern "C" {
#endif

/* The version of this header, and of the library that it was installed with; as a number it is 10,000 times the first
 * part, plus 100 times the second, plus the third. */
#define FIXLOMAND_VERSION "3.1.0"
#define FIXLOMAND_VERSION_NUMBER 30100

/* ---- What you lend -------------------------------------------------------------------------------------------------
 *
 * Six buffers, the same ones in every call, with exactly these lengths. None needs an alignment. They stay yours: the
 * core keeps no pointer after it has returned. Several sticks, each with its own six buffers, are independent.
 *
 *   state    what the core remembers between two calls. Its layout is at the end of this header; most firmware never
 *            looks into it.
 *   area     the memory that the hosts load and fetch: the first FIXLOMAND_PORT_AREA_LEN bytes are port 0's, the rest
 *            port 1's.
 *   screen   a byte for each cell, row by row from the upper left. Mode 0 is text of 40 columns by 24 rows, its cells
 *            are characters (ATASCII); modes 3 to 8 are graphics, their cells are colours: 0 to 3 in modes 3, 5 and
 *            7, 0 and 1 in modes 4, 6 and 8. FIXLOMAND_MODE in the state says which it is; cells past the mode's are
 *            not shown. You may read it between two calls, to show it; only a tick and a fresh start change it.
 *   paper    what was printed; FIXLOMAND_USED in the state says how many of its bytes. You may read it likewise. It
 *            only fills: at 4,096 the hosts are told that it is full, and only a fresh start empties it.
 *   tape     250 records of 132 bytes: $55, $55, a control byte ($FC full, $FA partial, $FE end of file), 128 bytes of
 *            data (of a partial record the last is the number of its characters), and a checksum: the sum of the 131
 *            bytes before it, each carry out of eight bits added back. Any bytes are a tape: a record that is none is
 *            told to the host that reads it. A tick that writes a record writes it whole; characters that do not fill
 *            one yet are in the state. Only a tick changes the tape, and no fresh start: what you lend then is the tape
 *            that is in. You may read it between two calls, to keep it where a power-down does not reach; while
 *            FIXLOMAND_MARK in the state is FIXLOMAND_TAPE_WRITING it has no end yet. While the mark is
 *            FIXLOMAND_TAPE_CLOSED no block of either port has it open, and you may put in another between two calls.
 *   images   what is on the diskettes in the drives D1 to D4, one image after the other, each of 720 sectors of 128
 *            bytes as DOS 2.0S writes them: sector s, 1 to 720, of drive n lies at FIXLOMAND_SECTOR(n, s), which is
 *            92,160 x (n - 1) + 128 x (s - 1). An ATR file of single density is such an image behind a header of 16
 *            bytes. Hosts read them; no call changes an image, a fresh start neither: only the doctor does, where you
 *            have it do so. Any bytes are a diskette: a chain of sectors that is none is told to the host that reads
 *            it. An image of zeros, as for an empty drive, has no file and no free sector. You may put in another
 *            between two calls, or have the doctor change it, best while no block of either port has that drive open
 *            (device FIXLOMAND_D and the drive's number): a block that has goes on from its place in what lies there
 *            then.
 */
#define FIXLOMAND_STATE_LEN 973
#define FIXLOMAND_AREA_LEN 32768
#define FIXLOMAND_SCREEN_LEN 61440
#define FIXLOMAND_PAPER_LEN 4096
#define FIXLOMAND_TAPE_LEN 33000
#define FIXLOMAND_IMAGES_LEN 368640

enum { FIXLOMAND_PORTS = 2, FIXLOMAND_PORT_AREA_LEN = 16384 };
enum { FIXLOMAND_DRIVES = 4, FIXLOMAND_IMAGE_LEN = 92160, FIXLOMAND_SECTORS = 720, FIXLOMAND_SECTOR_LEN = 128 };

/* Where the image of a drive, 1 to 4, begins in the images, and where one of its sectors, 1 to 720. */
#define FIXLOMAND_IMAGE(drive) (FIXLOMAND_IMAGE_LEN * ((drive) - 1))
#define FIXLOMAND_SECTOR(drive, sector) (FIXLOMAND_IMAGE(drive) + FIXLOMAND_SECTOR_LEN * ((sector) - 1))

/* The columns, rows and colours of a mode; 0 of a number that is no mode. */
#define FIXLOMAND_COLUMNS(mode)                                                                                        \
    ((mode) == 0 || (mode) == 3 ? 40 :                                                                                 \
     (mode) == 4 || (mode) == 5 ? 80 :                                                                                 \
     (mode) == 6 || (mode) == 7 ? 160 :                                                                                \
     (mode) == 8 ? 320 : 0)
#define FIXLOMAND_ROWS(mode)                                                                                           \
    ((mode) == 0 || (mode) == 3 ? 24 :                                                                                 \
     (mode) == 4 || (mode) == 5 ? 48 :                                                                                 \
     (mode) == 6 || (mode) == 7 ? 96 :                                                                                 \
     (mode) == 8 ? 192 : 0)
#define FIXLOMAND_COLOURS(mode)                                                                                        \
    ((mode) == 0 ? 256 :                                                                                               \
     (mode) == 3 || (mode) == 5 || (mode) == 7 ? 4 :                                                                   \
     (mode) == 4 || (mode) == 6 || (mode) == 8 ? 2 : 0)

/* ---- What a call answers -------------------------------------------------------------------------------------------
 *
 * Every answer but FIXLOMAND_DONE is a refusal: then no byte of any buffer has changed. Each is given exactly when the
 * words beside it hold; where more than one holds, the order is 2, 3, 1 (length, damage, port), and then the others.
 */
enum {
    FIXLOMAND_DONE = 0,          /* done */
    FIXLOMAND_BAD_PORT = 1,      /* the port is above 1 */
    FIXLOMAND_BAD_LENGTH = 2,    /* a lent buffer, the state too, has another length than the one above */
    FIXLOMAND_DAMAGED = 3,       /* the state is damaged, as "Damage" below defines it */
    FIXLOMAND_NOT_GATHERING = 4, /* take: the port has its message, and gathers again when its whole reply is given */
    FIXLOMAND_NO_REPLY = 5,      /* give: the port has no reply byte to give */
    FIXLOMAND_CONSOLE_HELD = 6,  /* press: a request is at work at the screen or the keyboard; offer the key again */
    FIXLOMAND_IDLE = 7,          /* tick: the port gathers or replies, and has nothing to do */
    FIXLOMAND_GROUP_HELD = 8     /* tick: the port waits, the other's request is at work at the device it needs */
};

/* ---- The calls -----------------------------------------------------------------------------------------------------
 *
 * Make a fresh start once at power-up, before any other call: buffers of zeros, or of anything else, are no stick yet.
 *
 * A port goes round: it gathers a message, is ready, runs the request, replies, and gathers again. The main loop of a
 * board does this for both ports in turn, for ever:
 *
 *     offer a byte of the link with take       0: it is taken; 4: keep it and offer it again later
 *     tick the port                            0, 7 and 8 are all in order
 *     if the link has room for a byte, give    0: send the byte; 5: there is none
 *     if a key was pressed, press              0: it is stored; 6: keep it and offer it again later
 *
 * The core keeps one key. A firmware that shall lose none keeps the next until the last has been read: until
 * state[FIXLOMAND_KEY] is FIXLOMAND_NO_KEY.
 *
 * A tick starts a request or moves one character, so that a port waits only while the other's request is at work at the
 * device group it needs (8). A device that comes free goes to the port that is ticked first: tick the ports in turn, and
 * do not start a port's next request before the other has been ticked once since the last one ended, or that one may wait
 * for ever. Tick both ports always, also one whose link is unplugged: a running request that is not
 * ticked keeps its device. Opening or clearing a graphics screen, up to 61,440 cells, takes longest beside the fresh
 * start. firmware/example/board.c is such a firmware.
 *
 * No call resets one port alone. A host that drops out in the middle of a message leaves its port gathering: the bytes
 * that it sends when it is back are taken as the rest of that message (docs/HOSTS.md says how a host finds its place).
 *
 * Of the state a take changes the port's first 11 bytes and its room, a give these 11 bytes, a press the key code, a
 * tick the port's 35 bytes and room, and the console, the printer, the cassette or the place of the request's block; a
 * tick also the port's own half of the area, and screen, paper or tape.
 *
 * FIXLOMAND_BAD_LENGTH and FIXLOMAND_BAD_PORT tell of a mistake in the firmware, FIXLOMAND_DAMAGED of memory that lost
 * what it held, as in a brown-out: make a fresh start, drop the bytes and keys that you hold, and reset both links (on
 * USB: detach and attach), so that the hosts know. The test sees the state alone: area, screen, paper, tape and images
 * may be lost without it. So after a reset that the hardware reports as a brown-out make a fresh start without asking. A
 * forgotten fresh start is found: a state of zeros is damaged.
 */
#define FIXLOMAND_LENT                                                                                                 \
    uint8_t *state, size_t state_len, uint8_t *area, size_t area_len, uint8_t *screen, size_t screen_len,             \
        uint8_t *paper, size_t paper_len, uint8_t *tape, size_t tape_len, uint8_t *images, size_t images_len

/* Fresh start. Answers 0 or 2 only: what the state held before does not matter. Writes every byte of the state and the
 * area (both areas are zero then) and of the screen (960 cells $20, the rest zero), and none of the paper, the tape and
 * the images: characters that were pending for the tape are lost. The state is then all zero but cursor column 2, read
 * column and key code 255, and lock 1 (shift). */
uint8_t fixlomand_fresh(FIXLOMAND_LENT);

/* Takes a byte that the port's host sent. Answers 0, 1, 2, 3 or 4. */
uint8_t fixlomand_take(FIXLOMAND_LENT, uint8_t port, uint8_t byte);

/* Moves the port's request on by one step. Answers 0, 1, 2, 3, 7 or 8. A request ends at most 89,876 ticks after the one
 * that started it. */
uint8_t fixlomand_tick(FIXLOMAND_LENT, uint8_t port);

/* Gives the next byte for the port's host: the answer (0, 1, 2, 3 or 5) in the low byte, the reply byte in the high one,
 * which is 0 beside a refusal. The byte is given once: ask only if you can send it. */
uint16_t fixlomand_give(FIXLOMAND_LENT, uint8_t port);
#define FIXLOMAND_ANSWER(given) ((uint8_t)((given) & 0xFF))
#define FIXLOMAND_BYTE(given) ((uint8_t)((given) >> 8))

/* Stores a pressed key, over an older one that nobody has read. Answers 0, 2, 3 or 6. The code is the key's number, plus
 * 64 with shift, plus 128 with control; a code above 191 is read as no character; 255 stands for no key and empties the
 * place. The keys' numbers, those not named are no key:
 *
 *    0 L   1 J   2 ;   5 K   6 +   7 *   8 O  10 P  11 U  12 RETURN     13 I  14 -  15 =
 *   16 V  18 C  21 B  22 X  23 Z  24 4  26 3  27 6  28 ESC        29 5  30 2  31 1
 *   32 ,  33 space  34 .  35 N  37 M  38 /  39 inverse  40 R  42 E  43 Y  44 TAB  45 T  46 W  47 Q
 *   48 9  50 0  51 7  52 BACKSPACE  53 8  54 <  55 >  56 F  57 H  58 D  60 CAPS  61 G  62 S  63 A */
uint8_t fixlomand_press(FIXLOMAND_LENT, uint8_t code);
enum { FIXLOMAND_WITH_SHIFT = 64, FIXLOMAND_WITH_CONTROL = 128 };

/* What a key means, for a firmware that wants to know itself; it is lent nothing and changes nothing. lock is one of the
 * locks below; inverse is 0 or 1. Gives the character, 0 to 255, or one of the meanings below. */
uint16_t fixlomand_translate(uint8_t code, uint8_t lock, uint8_t inverse);
enum { FIXLOMAND_LOCK_NONE = 0, FIXLOMAND_LOCK_SHIFT = 1, FIXLOMAND_LOCK_CONTROL = 2 };
enum {
    FIXLOMAND_MEANS_NOTHING = 256,      /* no character (also every code above $BF) */
    FIXLOMAND_MEANS_INVERSE = 257,      /* the key that flips inverse */
    FIXLOMAND_MEANS_UNLOCK = 258,       /* the key that ends a lock */
    FIXLOMAND_MEANS_SHIFT_LOCK = 259,   /* the key of shift lock */
    FIXLOMAND_MEANS_CONTROL_LOCK = 260, /* the key of control lock */
    FIXLOMAND_MEANS_END_OF_FILE = 261,  /* the key of end of file */
    FIXLOMAND_MEANS_BAD_LOCK = 262      /* lock or inverse is none of those above, whatever the code */
};

/* ---- The diskette doctor -------------------------------------------------------------------------------------------
 *
 * It sets one diskette's image right, so that each sector of 1 to 719 is reserved, free or in exactly one file, and
 * lists each byte that it has changed. It is no call of the stick: no message asks for it, it needs no state and no fresh
 * start, and it changes nothing but the two buffers that it is lent:
 *
 *   image    one diskette's: what you are about to put in, or has come out, or one of the four of the images, which is
 *            at images + FIXLOMAND_IMAGE(drive), between two calls.
 *   list     room for 512 changes of five bytes: sector (2), place in the sector, 0 to 127, the byte that was there
 *            (old), the byte that is there now (new). Behind the last change it stays as lent.
 *
 * What it does:
 *
 * - It walks every file's chain in directory order. Files are the entries whose flag has $40 and not $80, locked ones
 *   too, before the first entry with flag 0.
 * - It keeps a chain's sectors up to the first one that is
 *     reserved: 1 to 3 and 360 to 368;
 *     claimed already: an earlier file has kept it, or this one, in a ring;
 *     bad: above 719, or with another file number (byte 125), or with a data count (byte 127) above 125.
 *   There it cuts: the last sector that is kept gets next sector 0, in byte 126 and the two low bits of byte 125; its
 *   file number and data count stay. Where it is the file's first sector already, nothing is kept: the flag becomes
 *   exactly $80, deleted, and nothing else of the entry changes. A file with first sector 0 is empty, and kept.
 * - The sector count of a file that is kept becomes the number of its sectors.
 * - Free are the sectors of 1 to 719 that are neither reserved nor kept for a file. The free count, bytes 3 and 4 of
 *   sector 360, becomes their number, and the map, bytes 10 to 99, has a 1 for exactly these.
 *
 * All else stays: data, names, first sectors, entries that are no file, entries behind the end of the directory, the
 * map's bit of sector 0, the other bytes of sector 360, and sector 720.
 *
 * A byte is in the list if and only if it has changed, and once. The order: file by file byte 125, byte 126, the low and
 * the high byte of the sector count, or the flag alone; then of sector 360 bytes 3, 4 and 10 to 99. So there are at most
 * 64 x 4 + 2 + 90 = 348 changes, and some images have as many.
 *
 * A sound image, in which no chain has a sector to cut before, and all counts and the map are right, is left untouched
 * with an empty list; what the doctor leaves is sound. Reserved, free and in a file are then 719 sectors together, each
 * of the three counted by itself. Replaying the list on the old image gives the new one, and with old in the place of
 * new the list undoes it:
 *
 *     for (change = list; change < list + number * FIXLOMAND_CHANGE_LEN; change += FIXLOMAND_CHANGE_LEN)
 *         image[FIXLOMAND_CHANGE_AT(change)] = change[FIXLOMAND_CHANGE_OLD];
 *
 * All of this is proved for every image, and any bytes are one (that some have 348 changes is tested). So it warns nobody
 * of a diskette of another system, on which these bytes mean something else: it makes one of DOS 2.0S of it. DOS 2.0S
 * writes FIXLOMAND_DOS_2 into the first byte of sector 360. Where another is there,
 * image[FIXLOMAND_SECTOR(1, FIXLOMAND_MAP_SECTOR)], a firmware should ask first;
 * and keep the list in any case, until somebody has looked at the files.
 *
 * It does all its work before it returns, and meanwhile no port is ticked. Of 720 sectors it remembers which are claimed,
 * a byte each, on the stack: it needed 848 bytes of it where the deepest call needed 672, with the older kit
 * (firmware/measure prints both, and how long it takes).
 */
#define FIXLOMAND_LIST_LEN 2560

enum {
    FIXLOMAND_CHANGE_LEN = 5,
    FIXLOMAND_CHANGE_SECTOR = 0,
    FIXLOMAND_CHANGE_PLACE = 2,
    FIXLOMAND_CHANGE_OLD = 3,
    FIXLOMAND_CHANGE_NEW = 4,
    FIXLOMAND_CHANGES_MOST = 348
};
enum { FIXLOMAND_MAP_SECTOR = 360, FIXLOMAND_DOS_2 = 2 };

/* Where in the image the byte of a change is; change points to the first of its five bytes. */
#define FIXLOMAND_CHANGE_AT(change)                                                                                    \
    (FIXLOMAND_SECTOR(1, (change)[FIXLOMAND_CHANGE_SECTOR] + 256 * (change)[FIXLOMAND_CHANGE_SECTOR + 1]) +            \
     (change)[FIXLOMAND_CHANGE_PLACE])

/* Gives the answer (0 or 1) in the low byte, FIXLOMAND_ANSWER, and the number of changes in the bytes above it, which are
 * 0 beside a refusal. Refused, exactly if the image has not FIXLOMAND_IMAGE_LEN bytes or the list not FIXLOMAND_LIST_LEN,
 * it has changed no byte of either. */
uint32_t fixlomand_doctor(uint8_t *image, size_t image_len, uint8_t *list, size_t list_len);
enum { FIXLOMAND_DOCTOR_REFUSED = 1 };
#define FIXLOMAND_CHANGES(given) ((given) >> 8)

/* ---- What the hosts send and get -----------------------------------------------------------------------------------
 *
 * For a host in C, or a firmware that looks at the bytes it moves; the calls above need none of it. docs/HOSTS.md has
 * all of it in sentences.
 *
 * A message is a tag, a length (2) and that many bytes; so is its reply.
 */
enum {
    FIXLOMAND_TAG_CALL = 0x10,        /* 9 bytes: control block, command, address (2), length (2), AUX1, AUX2, A */
    FIXLOMAND_TAG_LOAD = 0x11,        /* 3 to 258: address (2), 1 to 256 bytes */
    FIXLOMAND_TAG_FETCH = 0x12,       /* 4: address (2), count (2), which is 1 to 256 */
    FIXLOMAND_TAG_CALL_REPLY = 0x90,  /* 4: status, count (2), A */
    FIXLOMAND_TAG_LOAD_REPLY = 0x91,  /* 1: status */
    FIXLOMAND_TAG_FETCH_REPLY = 0x92, /* 1, or 1 + count: status, then the bytes if it is $01 */
    FIXLOMAND_TAG_REFUSED = 0xFF      /* 1: status; the message has an unknown tag, or a wrong length */
};
enum {
    FIXLOMAND_HEADER_LEN = 3, /* tag and length */
    FIXLOMAND_CALL_LEN = 9,
    FIXLOMAND_CALL_REPLY_LEN = 4,
    FIXLOMAND_FETCH_LEN = 4,
    FIXLOMAND_PIECE_LEN = 256, /* the most bytes that a LOAD brings or a FETCH gets */
    FIXLOMAND_BLOCK_COUNT = 8  /* a port's control blocks are 0 to 7 */
};

/* Commands of CALL. Those that are neither named nor above GET STATUS, 0 to 2, 4, 6, 8 and $0A, are none. */
enum {
    FIXLOMAND_COMMAND_OPEN = 0x03,
    FIXLOMAND_COMMAND_GET_RECORD = 0x05,
    FIXLOMAND_COMMAND_GET_CHARACTERS = 0x07,
    FIXLOMAND_COMMAND_PUT_RECORD = 0x09,
    FIXLOMAND_COMMAND_PUT_CHARACTERS = 0x0B,
    FIXLOMAND_COMMAND_CLOSE = 0x0C,
    FIXLOMAND_COMMAND_GET_STATUS = 0x0D,
    FIXLOMAND_COMMAND_SPECIAL = 0x0E /* and every one above; no device has one */
};

/* The end of a record. */
enum { FIXLOMAND_EOL = 0x9B };

/* AUX1 is a sum; but D opens a directory where it is exactly FIXLOMAND_AUX1_DIRECTORY, which has READ in it. */
enum {
    FIXLOMAND_AUX1_FORCED = 0x01, /* E: forced read, needed with READ */
    FIXLOMAND_AUX1_READ = 0x04,   /* R */
    FIXLOMAND_AUX1_WRITE = 0x08,  /* W */
    FIXLOMAND_AUX1_SPLIT = 0x10,  /* S: split screen, refused with FIXLOMAND_STATUS_SCREEN_MODE */
    FIXLOMAND_AUX1_KEEP = 0x20    /* S: the cells are kept, each modulo the colours; else they are cleared */
};
enum { FIXLOMAND_AUX1_DIRECTORY = 0x06 };

/* From $80 on a status is a refusal; a read with one below it has moved all that it was asked for, or a whole record. */
enum {
    FIXLOMAND_STATUS_SUCCESS = 0x01,
    FIXLOMAND_STATUS_LAST_CHARACTER = 0x03,       /* from C or D, a success too: the next read would be END_OF_FILE */
    FIXLOMAND_STATUS_ALREADY_OPEN = 0x81,         /* OPEN on an open block, or of C while any block has it open */
    FIXLOMAND_STATUS_UNKNOWN_DEVICE = 0x82,       /* or malformed specification; a drive above 4 too */
    FIXLOMAND_STATUS_NOT_READABLE = 0x83,         /* reading without R */
    FIXLOMAND_STATUS_BAD_COMMAND = 0x84,          /* SPECIAL, AUX1 not offered, FETCH count, field length too */
    FIXLOMAND_STATUS_NOT_OPEN = 0x85,             /* transfer on a closed block */
    FIXLOMAND_STATUS_BAD_IOCB = 0x86,             /* control block above 7 */
    FIXLOMAND_STATUS_NOT_WRITABLE = 0x87,         /* writing without W */
    FIXLOMAND_STATUS_END_OF_FILE = 0x88,          /* from K: no key, or one that is no character; from C or D: the end */
    FIXLOMAND_STATUS_RECORD_CUT = 0x89,           /* the buffer was full before the EOL */
    FIXLOMAND_STATUS_CURSOR_PAST_LAST_ROW = 0x8D, /* of S */
    FIXLOMAND_STATUS_CHECKSUM = 0x8F,             /* from C: a bad record; its checksum, control byte or count */
    FIXLOMAND_STATUS_PAPER_FULL = 0x90,           /* or, of C, the tape: 249 full records are written */
    FIXLOMAND_STATUS_SCREEN_MODE = 0x91,          /* no mode of S, split screen, or the editor has the screen */
    FIXLOMAND_STATUS_UNKNOWN_TAG = 0x92,
    FIXLOMAND_STATUS_BAD_CHAIN = 0xA4,            /* from D: a bad link, file number or data count, or a 720th sector */
    FIXLOMAND_STATUS_BAD_FILE_NAME = 0xA5,        /* of D: a byte that no name has, or a second dot */
    FIXLOMAND_STATUS_FILE_LOCKED = 0xA7,          /* from D, GET STATUS alone: a locked file, which may be read */
    FIXLOMAND_STATUS_FILE_NOT_FOUND = 0xAA,       /* of D: no match for the name; GET STATUS: the file is deleted */
    FIXLOMAND_STATUS_PAST_AREA = 0xB0             /* buffer or specification past the area */
};

/* ---- The state, byte by byte ---------------------------------------------------------------------------------------
 *
 *   offset   bytes  what
 *      0      35    port 0
 *     35      35    port 1
 *     70      10    the console: screen, editor and keyboard
 *     80       2    the printer
 *     82     131    the cassette
 *    213     240    the diskettes: 16 places
 *    453     260    port 0's room
 *    713     260    port 1's room
 *
 * A port's 35 bytes, from its own offset:
 *
 *      0       1    phase: 0 gathering, 1 ready, 2 running, 3 replying
 *      1      10    ten bytes of numbers, by phase; those not named are 0:
 *                     gathering    1 tag, 0 to 255
 *                                  2 length (2), 0 to 65,535
 *                                  4 taken (3): bytes of the message so far, tag and length too, 0 to 65,537
 *                                  7 to 10 are 0
 *                     ready        1 tag, 0 to 255
 *                                  2 length (2), 0 to 65,535
 *                                  4 to 10 are 0
 *                     running      1 kind: 0 GET of one character, 1 GET CHARACTERS, 2 GET RECORD,
 *                                          3 PUT of one character, 4 PUT CHARACTERS, 5 PUT RECORD
 *                                  2 device: 1 E, 2 S, 3 K, 4 P, 5 C, 6 D
 *                                  3 control block, 0 to 7
 *                                  4 left (2): characters still to store or take, 0 to 16,384
 *                                  6 place (2): address of the next one, 0 to 16,384; of one character any number
 *                                  8 count (2): characters stored or taken, 0 to 16,384
 *                                 10 a: the message's A, 0 to 255
 *                     replying     1 length (2): all bytes of the reply, 4 to 260
 *                                  3 given (2): bytes given so far, 0 to 259
 *                                  5 to 10 are 0
 *     11      24    eight control blocks of three bytes:
 *                     0 device: 0 closed, 1 E (editor), 2 S (graphics), 3 K (keyboard), 4 P (printer), 5 C (cassette),
 *                               6 D (diskettes)
 *                     1 number: 1 to 8, of D 1 to 4; of a closed block 0
 *                     2 AUX1: 0 to 255; of a closed block 0
 *
 * The console's, from offset 70:
 *
 *      0       1    mode: 0 (text) or 3 to 8
 *      1       1    cursor row: in mode 0 at most 23, else at most the mode's rows (one more than its last row)
 *      2       2    cursor column: in mode 0 from 2 to 39, else less than the mode's columns
 *      4       1    last character, 0 to 255
 *      5       1    escape: 0, or 1 after an escape character
 *      6       1    read column: 2 to 40, or 255 for none
 *      7       1    key code, 0 to 255; 255 for none
 *      8       1    lock: 0 none, 1 shift, 2 control
 *      9       1    inverse: 0 or 1
 *
 * with these modes, columns by rows: 0 and 3 40 by 24; 4 and 5 80 by 48; 6 and 7 160 by 96; 8 320 by 192.
 *
 * The printer's two bytes at 80 are the paper's used length, 0 to 4,096.
 *
 * The cassette's, from offset 82:
 *
 *      0       1    mark, how the tape is open: 0 closed, 1 reading, 2 writing, 3 with neither
 *      1       1    record, that of the next character: reading 0 to 250 (then the tape has run out), writing 0 to 249
 *                   (then it is full), else 0
 *      2       1    place: reading that of the next character in its record, writing the number of pending characters;
 *                   0 to 127, but writing at record 249 only 0; else 0
 *      3     128    the pending characters from the first on, any bytes; the others mean nothing, and may be any too
 *
 * The places, from offset 213, have 15 bytes each; that of port p's control block i is number 8 x p + i. It tells where
 * a block that has D open reads on. The place of any other block means nothing and may be any bytes: CLOSE leaves it.
 *
 *      0       1    unit: the drive's number less 1, 0 to 3
 *      1       1    kind: 0 a file, 1 the directory
 *                   of a file:
 *      2       1    entry: the file's number, 0 to 63
 *      3       1    place: how many characters of its sector are read, 0 to 125
 *      4       2    sector, any number; 0 is the file's end
 *      6       2    passed: how many sectors of the file come before this one, 0 to 718
 *      8       7    mean nothing: 0 after the OPEN, and may be any
 *                   of the directory:
 *      2       1    entry whose record is read, 0 to 63, or 64 for the record of free sectors, or 65 at the end; before
 *                   a record's first character the entry from which on a match is looked for
 *      3       1    place of the next character in the record: 0 to 17, but at entry 64 0 to 16, and at 65 only 0
 *      4      11    the name that is asked for, eight bytes and three, any bytes; a ? matches every byte
 *
 * A room has the value of the message that its port gathers, or its reply: any bytes. So the rooms are never damaged, and
 * neither are the pending characters.
 */
enum {
    FIXLOMAND_PORT_LEN = 35, /* port 1 begins here */
    FIXLOMAND_PHASE = 0,
    FIXLOMAND_NUMBERS = 1,
    FIXLOMAND_NUMBERS_LEN = 10,
    FIXLOMAND_BLOCKS = 11,
    FIXLOMAND_BLOCK_LEN = 3,

    FIXLOMAND_CONSOLE = 70,
    FIXLOMAND_MODE = 70,
    FIXLOMAND_ROW = 71,
    FIXLOMAND_COLUMN = 72,
    FIXLOMAND_LAST = 74,
    FIXLOMAND_ESCAPE = 75,
    FIXLOMAND_READ_COLUMN = 76,
    FIXLOMAND_KEY = 77,
    FIXLOMAND_LOCK = 78,
    FIXLOMAND_INVERSE = 79,
    FIXLOMAND_USED = 80,
    FIXLOMAND_CASSETTE = 82,
    FIXLOMAND_MARK = 82,
    FIXLOMAND_RECORD = 83,
    FIXLOMAND_PLACE = 84,
    FIXLOMAND_PENDING = 85,
    FIXLOMAND_PENDING_LEN = 128,
    FIXLOMAND_PLACES = 213, /* port 0's eight, then port 1's */
    FIXLOMAND_PLACE_LEN = 15,
    FIXLOMAND_PLACES_LEN = 240,

    FIXLOMAND_ROOMS = 453, /* port 0's room, then port 1's */
    FIXLOMAND_ROOM_LEN = 260
};

enum { FIXLOMAND_GATHERING = 0, FIXLOMAND_READY = 1, FIXLOMAND_RUNNING = 2, FIXLOMAND_REPLYING = 3 };
enum {
    FIXLOMAND_CLOSED = 0,
    FIXLOMAND_E = 1,
    FIXLOMAND_S = 2,
    FIXLOMAND_K = 3,
    FIXLOMAND_P = 4,
    FIXLOMAND_C = 5,
    FIXLOMAND_D = 6
};
enum {
    FIXLOMAND_TAPE_CLOSED = 0,
    FIXLOMAND_TAPE_READING = 1,
    FIXLOMAND_TAPE_WRITING = 2,
    FIXLOMAND_TAPE_NEITHER = 3
};
enum { FIXLOMAND_NO_COLUMN = 255, FIXLOMAND_NO_KEY = 255 };

/* Where a byte of a block's place is, from the place's own offset. */
enum {
    FIXLOMAND_PLACE_UNIT = 0,
    FIXLOMAND_PLACE_KIND = 1,
    FIXLOMAND_PLACE_ENTRY = 2,
    FIXLOMAND_PLACE_AT = 3,
    FIXLOMAND_PLACE_SECTOR = 4,
    FIXLOMAND_PLACE_PASSED = 6,
    FIXLOMAND_PLACE_NAME = 4
};
enum { FIXLOMAND_PLACE_FILE = 0, FIXLOMAND_PLACE_DIRECTORY = 1 };
enum { FIXLOMAND_ENTRIES = 64, FIXLOMAND_FREE_RECORD = 64, FIXLOMAND_LISTING_END = 65, FIXLOMAND_NAME_LEN = 11 };

/* ---- Damage --------------------------------------------------------------------------------------------------------
 *
 * Every call but the fresh start looks, after the lengths, whether the state is damaged, and answers 3 if it is. It is
 * damaged if a byte or number is outside its range above, or if one of these holds:
 *
 * - An open block is one that no OPEN makes. In AUX1, 4 is R (reading), 8 is W (writing). K and D are never open with W,
 *   P never with R, C never with both; E with R always has 1 (forced read), and S never has 16 (split screen).
 * - A block that has D open is at odds with its place: the unit is not the block's number less 1; or AUX1 is exactly 6
 *   and the kind is not 1; or AUX1 is another and the kind is not 0. Only the places of such blocks are looked at.
 * - The blocks and the cassette's mark are at odds. Where it is 0 no block has C open. Where it is not, one block of the
 *   two ports has, and no second one: with R for 1, with W for 2, with neither for 3.
 * - A port gathers as many bytes as its message has, or more: taken is 3 + length or more, and 3 at least. Or a number of
 *   the header is there that is not taken yet: taken is 0 and tag or length is not 0; or it is 1 and length is not 0; or
 *   it is 2 and length is above 255.
 * - A port replies, and given is not below length.
 * - A running request does not fit
 *     its block: that is open, on the request's device, with R for a GET and W for a PUT;
 *     the mode: E runs in mode 0 alone, S in every other mode, K, P, C and D in any;
 *     its buffer: of one character left and count are 0. Otherwise place + left is at most 16,384 and count at most
 *     place; of CHARACTERS left is not 0; of a RECORD left and count are not both 0.
 * - Both ports run requests at one group. E, S and K are one group, the console; P is the second, C the third; D, with
 *   all four drives, is the fourth.
 *
 * So two states that are not answered 3 and differ in some byte before the pending characters are two different sticks.
 * Cells, paper, tape, images, area, pending characters, rooms and the places of blocks that do not have D open are never
 * damaged: all their values are in range.
 *
 * Every state that the calls leave after a fresh start passes the test. Some others pass too, such as a graphics cursor
 * below the last row in a column other than 0, and the core works on with them. It is no checksum: a damaged byte may
 * happen to make another state that is in order.
 *
 * ---- What the core cannot test -------------------------------------------------------------------------------------
 *
 * - Each pointer is good for reading and writing as many bytes as its length says. (With length 0 it may be NULL.)
 * - The six buffers do not overlap, and none overlaps the core's own code, or the stack below the caller's frame, which
 *   the call uses (firmware/measure prints how much). Nothing writes into that stack during the call.
 * - Nobody else writes them during a call; no interrupt and no other thread calls the core with them meanwhile. Who reads
 *   them during a call, as a display's DMA, may see half a change.
 * - Between two calls nobody writes them either, but for a tape that is not open, and images. If somebody does, the core
 *   still answers, and still reads and writes nothing outside them; but then it works on with what it finds, and what it
 *   finds may be another host's bytes.
 * - While the doctor runs, all this holds of the two buffers that it is lent; where its image is one of the four, no call
 *   is made with them meanwhile.
 */

#ifdef __cplusplus
}
#endif

#endif
