"""Lines of no known form, each of which ends a play."""

BAD_LINES = [
    "A", "B nothing", "C new", "A  new", "A new ", " A new", "A new 1", "new A", "deliver A0", "deliver A999",
    "deliver A01", "deliver C1", "deliver A", "again B999", "lose B0", "deliver", "lose A1 A2", "idle 5",
    "idle", "A raw", "A raw 0", "A raw ABC", "A raw XY", "A rawfrom 41", "B rawfrom 4 6200",
    "B rawfrom " + "41" * 256 + " 6200", "advance", "advance -1", "advance +1", "advance 01",
    "advance 18446744073709551616", "A advance 5", "A invoke 1 1 5 1 1 - -", "A invoke 1 1 0 1 1 - -",
    "A invoke 01 1 1 1 1 - -", "A invoke 1 -0 1 1 1 - -", "A invoke 1 128 1 1 1 - -",
    "A invoke 1 -129 1 1 1 - -", "A invoke 1 1 1 2147483648 1 - -", "A invoke 1 1 1 1 -1 - -",
    "A invoke 1 1 1 1 1 200 -", "A invoke 1 1 1 1 1 -", "A invoke 4294967296 1 1 1 1 - -", "A last 1 1 - 0400",
    "A more 1 1 - 0500", "A error 1 1 - -", "A error 1 - 1 -", "A reject 1 1 general 128",
    "A reject 1 1 General 1", "A reject 1 1 other 1", "A reject 1 1 result", "A cancel 1", "A cancel 1 -",
    "A begin 1 -", "A begin 1 - - -", "A beginto 1 - -", "A beginto 1 4 - -", "A abort 1 - -",
    "A abort 1 nobody -", "A abort 1 user", "A prearranged", "A prearranged 1 -", "a new", "A NEW", "A new\t",
    "A new\r", "A uni - - -", "A end 1 - 0", "A continue x - -", "A\tnew", "-", "A raw 62 00", "A begin 1 04 2",
    "DELIVER A1", "A raw ", "A begin 1  -", "A begin 1 - ", " ", "A raw 0x62", "A raw 6\u00b2", "A new\u00e9",
    "A cancel \u0661 1", "A begin 4294967295 - -\x00", "A invoke 1 1 1 -2147483649 1 - -",
    "A last 1 1 2147483648 -", "advance -0", "advance 1e3",
]
