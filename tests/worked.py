"""The chains that document 01 works on paper, as stored bytes with the text that the printing program writes for them.

Every expected line is taken from the paper; a weight of 1 is (2147483648, -31). Case 7 and the example of 6 are as request R-3 has
them, case 6 as request R-5 has it, and the files of form 2 are by the words of request R-8. The digits of the nine states, of the four
whose bits tell the order of the operations and of the rates of four different bytes are the models'.
"""

ONE, HALF = "2147483648 -31", "2147483648 -32"
EVEN = f"states 2 bound 8\n0 {ONE} {HALF}\n1 {ONE} {HALF}\n"
# a ring of nine states, each with rate 1,000 to the next: its rows from 1 on, in both forms
RING_MAPS = ("0400", "0800", "1000", "2000", "4000", "8000", "0001", "0100")
RING_OF_9 = " ".join(f"{bits} e8030000" for bits in RING_MAPS)
SHORT_RING_OF_9 = " ".join(f"{bits} {bits} e803" for bits in RING_MAPS)
CASE_2 = f"states 2 bound 8\n0 2863311531 -33 2147483648 -33\n1 {ONE} 3221225472 -32\n"
CASE_3 = f"states 3 bound 28\n0 2147483648 -29 2454267026 -32\n1 2147483648 -30 2454267026 -33\n2 {ONE} 2454267026 -34\n"
NINE = "states 9 bound 624\n" + "".join(f"{i} 3419559949 -32 3712158423 -35\n" for i in range(8)) + f"8 {ONE} 2331235489 -34\n"

PRINTED = (
    ("1", "01 00", f"states 1 bound 0\n0 {ONE} {ONE}\n"),
    ("2", "02 02 03000000 01 01000000", CASE_2),
    ("2 cut off", "02 02 03", "refused 8 0 0\n"),
    ("3", "03 02 02000000 04 04000000 01 08000000", CASE_3),
    ("4", "02 02 01000000 01 ffffffff",
     f"states 2 bound 8\n0 4294967295 0 4294967295 -32\n1 {ONE} 2147483648 -63\n"),
    ("6", "02 02 00000000 01 05000000", "refused 14 0 1\n"),
    ("6, cleaned", "02 00 01 05000000", f"states 2 bound 0\n0 {ONE} {ONE}\n1 0 0 0 0\n"),
    ("7", "03 02 01000000 01 01000000 01 01000000", f"states 3 bound 8\n0 {ONE} {HALF}\n1 {ONE} {HALF}\n2 0 0 0 0\n"),
    ("9, order byte 0", "00", "refused 1 0 0\n"),
    ("9, order byte 65", "41", "refused 1 0 0\n"),
    ("9, order byte 64 and nothing", "40", "refused 8 0 0\n"),
    ("refusal table, 6", "02 00 00", "refused 6 0 1\n"),
    ("refusal table, 6 before R-3", "02 02 01000000 00", f"states 2 bound 0\n0 0 0 0 0\n1 {ONE} {ONE}\n"),
    ("refusal table, 8", "", "refused 8 0 0\n"),
    ("refusal table, 9", "01 01", "refused 9 0 0\n"),
    ("refusal table, 10", "01 00 00", "refused 10 0 0\n"),
    ("a zero rate, then a cut in its row", "03 06 00000000 0700", "refused 14 0 1\n"),
    ("a zero rate, then the end of its row", "03 06 07000000 00000000", "refused 14 0 2\n"),
    ("a cut, then a zero rate that is missing", "03 06 07000000", "refused 8 0 0\n"),
    ("three zero bytes, then the end", "02 02 000000", "refused 8 0 0\n"),
    ("a zero rate, then a bad bit of a later row", "02 02 00000000 02 05000000", "refused 14 0 1\n"),
    ("a bad bit, then a zero rate of its row", "02 03 00000000 00000000 01 05000000", "refused 9 0 0\n"),
    ("a zero rate's bit, then a bad one in the same map", "02 06 00000000 05000000 01 05000000", "refused 9 0 2\n"),
    ("a bad bit, then a zero rate of a later row", "02 01 05000000 01 00000000", "refused 9 0 0\n"),
    ("a zero rate, then bytes left over", "02 02 05000000 01 00000000 00", "refused 14 1 0\n"),
    ("two zero rates", "03 06 07000000 00000000 05 00000000 07000000 00", "refused 14 0 2\n"),
    ("the nine states of docs/FORMAT.md, before cleaning", f"09 0201 e8030000 00000000 {RING_OF_9}", "refused 14 0 8\n"),
    ("the nine states of docs/FORMAT.md", f"09 0201 e8030000 00010000 {RING_OF_9}", NINE),
    ("the order of the operations",
     "04 0e 03000000 feffffff 02000000 0d 03000000 02000000 02000000 0b 09000000 05000000 05000000 07 02000000 03000000 01000000",
     "states 4 bound 64\n0 3274912559 -60 2339223254 -61\n1 2147483649 -31 3067833781 -33\n2 3435973832 -32 2454267021 -33\n"
     f"3 {ONE} 3067833780 -33\n"),
    ("rates of four different bytes", "02 02 01020304 01 05060708",
     f"states 2 bound 8\n0 2148537369 -30 2863779698 -32\n1 {ONE} 2862375196 -33\n"),
    ("rates 256", "02 02 00010000 01 00010000", EVEN),
    ("rates 65536", "02 02 00000100 01 00000100", EVEN),
    ("rates 16777216", "02 02 00000001 01 00000001", EVEN),
    # request R-8: form 2; a loose bit is one of a second map without its rate
    ("1, form 2", "81 00 00", f"states 1 bound 0\n0 {ONE} {ONE}\n"),
    ("2, form 2", "82 02 02 0300 01 01 0100", CASE_2),
    ("3, form 2", "83 02 02 0200 04 04 0400 01 01 0800", CASE_3),
    ("4, form 2", "82 02 02 0100 01 00 ffffffff", f"states 2 bound 8\n0 4294967295 0 4294967295 -32\n1 {ONE} 2147483648 -63\n"),
    ("6, form 2, cleaned", "82 00 00 01 01 0500", f"states 2 bound 0\n0 {ONE} {ONE}\n1 0 0 0 0\n"),
    ("the nine states, form 2", f"89 0201 0201 e803 0001 {SHORT_RING_OF_9}", NINE),
    ("65,535 marked and 65,536 unmarked", "83 02 02 ffff 01 01 ffff 01 00 00000100",
     f"states 3 bound 8\n0 {ONE} {HALF}\n1 {ONE} {HALF}\n2 0 0 0 0\n"),
    ("a long rate before a short one", "83 06 04 00000100 0100 00 00 00 00", "refused 6 1 2\n"),
    ("two closed sets, form 2", "82 00 00 00 00", "refused 6 0 1\n"),
    ("first byte 128", "80", "refused 1 0 0\n"),
    ("first byte 128, then a row", "80 00 00", "refused 1 0 0\n"),
    ("first byte 193", "c1", "refused 1 0 0\n"),
    ("first byte 255, then maps", "ff 00 00", "refused 1 0 0\n"),
    ("first byte 192 and nothing", "c0", "refused 8 0 0\n"),
    ("first byte 65, then two maps", "41 00 00", "refused 1 0 0\n"),
    ("form 2, bytes left over", "81 00 00 00", "refused 10 0 0\n"),
    ("no second map", "82 02", "refused 8 0 0\n"),
    ("a second map cut short", "89 0201 02", "refused 8 0 0\n"),
    ("a second map cut short, its first byte with a loose bit", "89 0201 04", "refused 8 0 0\n"),
    ("a bad bit, no second map", "82 03", "refused 9 0 0\n"),
    ("a bad bit, then a loose one", "82 06 01", "refused 9 0 2\n"),
    ("a loose bit below n", "82 00 02", "refused 16 0 1\n"),
    ("a loose bit at its row", "82 02 03", "refused 16 0 0\n"),
    ("a loose bit at n", "82 02 06", "refused 16 0 2\n"),
    ("two loose bits", "82 00 06", "refused 16 0 1\n"),
    ("the highest bit loose", "82 02 82 0300 01 01 0100", "refused 16 0 7\n"),
    ("a loose bit in the last row", "82 02 02 0300 01 03 0100", "refused 16 1 1\n"),
    ("an unmarked short rate", "82 02 00 03000000", "refused 16 0 1\n"),
    ("an unmarked 65,535", "82 02 00 ffff0000 01 01 0100", "refused 16 0 1\n"),
    ("an unmarked short rate behind another", "83 06 02 0300 05000000", "refused 16 0 2\n"),
    ("an unmarked short rate, then a cut in its row", "83 06 04 03000000 05", "refused 16 0 1\n"),
    ("an unmarked short rate, then a bad bit", "82 02 00 03000000 03", "refused 16 0 1\n"),
    ("an unmarked short rate, then bytes left over", "82 00 00 01 00 03000000 07", "refused 16 1 0\n"),
    ("an unmarked short rate, then a zero rate", "83 06 04 03000000 0000", "refused 16 0 1\n"),
    ("an unmarked short rate cut short", "82 02 00 0300", "refused 8 0 0\n"),
    ("a short rate cut short", "82 02 02 03", "refused 8 0 0\n"),
    ("a marked zero rate", "82 02 02 0000", "refused 14 0 1\n"),
    ("an unmarked zero rate", "82 02 00 00000000", "refused 14 0 1\n"),
    ("a zero byte, then the end", "82 02 02 00", "refused 8 0 0\n"),
    ("three zero bytes, then the end, form 2", "82 02 00 000000", "refused 8 0 0\n"),
    ("a loose bit, then a zero rate of its row", "83 02 06 0000", "refused 16 0 2\n"),
    ("a loose bit, then the end", "83 02 06 03", "refused 16 0 2\n"),
    ("a zero rate, then a loose bit of a later row", "82 02 02 0000 00 01", "refused 14 0 1\n"),
    ("a zero rate, then an unmarked short rate", "83 06 02 0000 03000000", "refused 14 0 1\n"),
    ("a rate 256 in two bytes", "82 02 02 0001 01 01 0001", EVEN),
)

# request R-8: one chain in both forms
BOTH_FORMS = (
    ("case 1", "01 00", "81 00 00"),
    ("case 2, the printed example", "02 02 03000000 01 01000000", "82 02 02 0300 01 01 0100"),
    ("case 3", "03 02 02000000 04 04000000 01 08000000", "83 02 02 0200 04 04 0400 01 01 0800"),
    ("case 4", "02 02 01000000 01 ffffffff", "82 02 02 0100 01 00 ffffffff"),
    ("case 6, cleaned", "02 00 01 05000000", "82 00 00 01 01 0500"),
    ("case 7", "03 02 01000000 01 01000000 01 01000000", "83 02 02 0100 01 01 0100 01 01 0100"),
    ("two closed sets", "02 00 00", "82 00 00 00 00"),
    ("the nine states of docs/FORMAT.md", f"09 0201 e8030000 00010000 {RING_OF_9}", f"89 0201 0201 e803 0001 {SHORT_RING_OF_9}"),
    ("65,535 and 65,536", "03 02 ffff0000 01 ffff0000 01 00000100", "83 02 02 ffff 01 01 ffff 01 00 00000100"),
    ("a long rate before a short one", "03 06 00000100 01000000 00 00", "83 06 04 00000100 0100 00 00 00 00"),
    ("rates of different bytes", "02 02 01020000 01 03040506", "82 02 02 0102 01 00 03040506"),
)

# request R-5: bytes, and what the cleaning program writes for them: the file, or the refusal without 14
CLEANED = (
    ("case 1", "01 00", "01 00"),
    ("case 2", "02 02 03000000 01 01000000", "02 02 03000000 01 01000000"),
    ("case 6", "02 02 00000000 01 05000000", "02 00 01 05000000"),
    ("case 6, the other rate too", "02 02 00000000 01 00000000", "02 00 00"),
    ("a zero rate between two others", "04 0e 05000000 00000000 06000000 00 00 01 07000000", "04 0a 05000000 06000000 00 00 01 07000000"),
    ("the nine states of docs/FORMAT.md", f"09 0201 e8030000 00000000 {RING_OF_9}", f"09 0200 e8030000 {RING_OF_9}"),
    ("rates 256 and 16777216", "02 02 00010000 01 00000001", "02 02 00010000 01 00000001"),
    ("two closed sets", "02 00 00", "02 00 00"),
    ("a zero rate, then a cut in its row", "03 06 00000000 0700", "refused 8 0 0\n"),
    ("three zero bytes, then the end", "02 02 000000", "refused 8 0 0\n"),
    ("a zero rate, then a map cut short", "02 02 00000000", "refused 8 0 0\n"),
    ("a zero rate, then a bad bit of a later row", "02 02 00000000 02 05000000", "refused 9 1 1\n"),
    ("a bad bit, then a zero rate of its row", "02 03 00000000 00000000 01 05000000", "refused 9 0 0\n"),
    ("a zero rate's bit, then a bad one in the same map", "02 06 00000000 05000000 01 05000000", "refused 9 0 2\n"),
    ("a zero rate, then bytes left over", "02 02 05000000 01 00000000 00", "refused 10 0 0\n"),
    ("an empty file", "", "refused 8 0 0\n"),
    ("order 0", "00", "refused 1 0 0\n"),
    ("order 65, then a zero rate", "41 02 00000000", "refused 1 0 0\n"),
    ("the letter r, which begins no file", "72 65", "refused 1 0 0\n"),
    # request R-8: the form is kept, and a zero rate's mark goes with it
    ("case 1, form 2", "81 00 00", "81 00 00"),
    ("case 4, form 2", "82 02 02 0100 01 00 ffffffff", "82 02 02 0100 01 00 ffffffff"),
    ("case 6, form 2", "82 02 02 0000 01 01 0500", "82 00 00 01 01 0500"),
    ("case 6, form 2, the other rate too", "82 02 02 0000 01 01 0000", "82 00 00 00 00"),
    ("a zero rate between a short and a long one", "84 0e 06 0500 0000 00000100 00 00 00 00 01 01 0700",
     "84 0a 02 0500 00000100 00 00 00 00 01 01 0700"),
    ("a zero rate after a long one", "84 06 04 00000100 0000 00 00 00 00 01 01 0700", "84 02 00 00000100 00 00 00 00 01 01 0700"),
    ("a zero rate before a long one", "84 06 02 0000 00000100 00 00 00 00 01 01 0700", "84 04 00 00000100 00 00 00 00 01 01 0700"),
    ("the nine states, form 2", f"89 0201 0201 e803 0000 {SHORT_RING_OF_9}", f"89 0200 0200 e803 {SHORT_RING_OF_9}"),
    ("rates 1 and 256 in two bytes", "82 02 02 0100 01 01 0001", "82 02 02 0100 01 01 0001"),
    ("an unmarked zero rate", "82 02 00 00000000 01 01 0500", "refused 16 0 1\n"),
    ("a marked zero rate, then an unmarked one", "82 02 02 0000 01 00 00000000", "refused 16 1 0\n"),
    ("an unmarked zero rate, then a bad bit", "82 02 00 00000000 03 01 0500", "refused 16 0 1\n"),
    ("an unmarked short rate", "82 02 00 03000000 01 01 0500", "refused 16 0 1\n"),
    ("a loose bit, then a zero rate of its row", "83 02 06 0000 00 00 00 00", "refused 16 0 2\n"),
    ("a zero rate, then a loose bit", "82 02 02 0000 01 03 0500", "refused 16 1 1\n"),
    ("a zero rate, then a bad bit, form 2", "82 02 02 0000 02 02 0500", "refused 9 1 1\n"),
    ("a zero rate, then the end, form 2", "82 02 02 0000", "refused 8 0 0\n"),
    ("a zero rate, then bytes left over, form 2", "82 00 00 01 01 0000 00", "refused 10 0 0\n"),
    ("first byte 128, then a zero rate", "80 02 02 0000", "refused 1 0 0\n"),
)

EXACT_WEIGHTS = (
    ("2", [[(1, 3)], [(0, 1)]], [1, 3]),
    ("3", [[(1, 2)], [(2, 4)], [(0, 8)]], [32, 16, 8]),
    ("6, cleaned", [[], [(0, 5)]], [1, 0]),
    ("7", [[(1, 1)], [(0, 1)], [(0, 1)]], [1, 1, 0]),
    ("the order of the operations",
     [[(1, 3), (2, 4294967294), (3, 2)], [(0, 3), (2, 2), (3, 2)], [(0, 9), (1, 5), (3, 5)], [(0, 2), (1, 3), (2, 1)]],
     [549, 193273528681, 154618822652, 193273528620]),
)

# request R-1: a chain, its bound count, a table, and the shares of the groups that are not Zero. In case 7 state 2, and so group 4, is
# outside the closed set.
GROUP_SHARES = (
    ("3", [[(1, 2)], [(2, 4)], [(0, 8)]], 28, [0, 1, 3, 2, 2, 15], {3: (3681400539, -32), 15: (2454267026, -34)}),
    ("7", [[(1, 1)], [(0, 1)], [(0, 1)]], 8, [2, 2, 4, 0, 1, 9], {9: (2147483648, -31)}),
    ("7, a group with a state outside", [[(1, 1)], [(0, 1)], [(0, 1)]], 8, [1, 2, 4, 0, 0, 9], {4: (2147483648, -32), 9: (2147483648, -32)}),
)

BOUND_COUNTS = ((1, 0), (2, 8), (3, 28), (64, 182784))


def all_ones():
    """Case 10: 64 states, every rate 1."""
    return [[(j, 1) for j in range(64) if j != i] for i in range(64)]


def cleaned_bytes(text):
    """What CLEANED says, as bytes: a line, or hexadecimal digits."""
    return text.encode("ascii") if text.startswith("refused") else bytes.fromhex(text)
