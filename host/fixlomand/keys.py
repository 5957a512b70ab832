"""Key codes of the stick's keyboard for what is typed in a terminal."""

from __future__ import annotations

TABLE = bytes.fromhex(
    "6C6A3B80806B2B2A6F8070759B692D3D768063808062787A348033361B353231"
    "2C202E6E806D2F81728065797F747771398030377E383C3E6668648082677361"
    "4C4A3A80804B5C5E4F8050559B495F7C568043808042585A248023261B252221"
    "5B205D4E804D3F81528045599F545751288029279C407D9D4648448083475341"
    "0C0A7B80800B1E1F0F8010159B091C1D168003808002181A808085801B80FD80"
    "0020600E800D8081128005199E14171180808080FE807DFF0608048084071301"
)
"""The character or action of each code: plain, with shift, with control."""

RETURN = TABLE.index(0x9B)
ESCAPE = TABLE.index(0x1B)
BACKSPACE = TABLE.index(0x7E)
TAB = TABLE.index(0x7F)
CLEAR = TABLE.index(0x7D)
UP, DOWN, LEFT, RIGHT = (TABLE.index(code) for code in (0x1C, 0x1D, 0x1E, 0x1F))
INVERSE = TABLE.index(0x81)
UNLOCK = TABLE.index(0x82)
SHIFT_LOCK = TABLE.index(0x83)
CONTROL_LOCK = TABLE.index(0x84)
END_OF_FILE = TABLE.index(0x85)

LOCKS = ("no lock", "shift lock", "control lock")
ACTIONS = {
    0x1B: "escape",
    0x1C: "up",
    0x1D: "down",
    0x1E: "left",
    0x1F: "right",
    0x7D: "clear",
    0x7E: "backspace",
    0x7F: "tab",
    0x80: "none",
    0x81: "inverse",
    0x82: "unlock",
    0x83: "shift lock",
    0x84: "control lock",
    0x85: "end of file",
    0x9B: "return",
}
"""Entries of the table that are better said than shown."""


def code_of(character: int) -> int | None:
    """The key that types an ASCII character when no lock is on: letters with
    or without shift, $01 to $1A with control. Not all are on the keyboard."""
    if character in (0x0A, 0x0D):
        return RETURN
    if character in (0x08, 0x7F):
        return BACKSPACE
    if character == 0x09:
        return TAB
    if character == 0x1B:
        return ESCAPE
    if 0x01 <= character <= 0x1A or 0x20 <= character <= 0x7C:
        place = TABLE.find(character)
        return place if place >= 0 else None
    return None
