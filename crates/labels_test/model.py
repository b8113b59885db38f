# Writes what labels_test must write: published hashes, a model of the 128 places, and lines worked out by hand. It shares
# no code with the crate.
import sys

def fnv1a(data):
    h = 0x811C9DC5
    for byte in data:
        h = ((h ^ byte) * 0x01000193) & 0xFFFFFFFF
    return h

# 32-bit FNV-1a, from the FNV reference test suite
PUBLISHED = [
    ("", "811c9dc5"), ("a", "e40c292c"), ("b", "e70c2de5"), ("c", "e60c2c52"), ("d", "e10c2473"), ("e", "e00c22e0"),
    ("f", "e30c2799"), ("fo", "6222e842"), ("foo", "a9f37ed7"), ("foob", "3f5076ef"), ("fooba", "39aaa18a"),
    ("foobar", "bf9cf968"),
    ("ch", "5f299f4e"), ("cho", "ef8580f3"), ("chon", "ac297727"), ("chong", "4546b9c0"), ("chongo", "bd564e7d"),
    ("chongo ", "6bdd5c67"), ("chongo w", "dd77ed30"), ("chongo wa", "f4ca9683"), ("chongo was", "4aeb9bd0"),
    ("chongo was ", "e0e67ad0"), ("chongo was h", "c2d32fa8"), ("chongo was he", "7f743fb7"),
    ("chongo was her", "6900631f"), ("chongo was here", "c59c990e"), ("chongo was here!", "448524fd"),
    ("chongo was here!\n", "d49930d5"),
    ("\0", "050c5d1f"), ("a\0", "2b24d044"), ("b\0", "9d2c3f7f"), ("c\0", "7729c516"), ("d\0", "b91d6109"),
    ("e\0", "931ae6a0"), ("f\0", "052255db"), ("fo\0", "bef39fe6"), ("foo\0", "6150ac75"), ("foob\0", "9aab3a3d"),
    ("fooba\0", "519c4c3e"), ("foobar\0", "0c1c9eb8"),
]
out = []
for name, value in PUBLISHED:
    assert "%08x" % fnv1a(name.encode()) == value, name
    shown = "".join("." if c < " " else c for c in name)
    out.append('hash of "%s": %s' % (shown, value))

# by hand
out += """label byte 47: no
label byte 48: yes
label byte 57: yes
label byte 58: no
label byte 64: no
label byte 65: yes
label byte 90: yes
label byte 91: no
label byte 95: yes
label byte 96: no
label byte 97: no
label byte 13: no
label byte 0: no
label byte 255: no
label of length 0: ........................
label of length 1: Z.......................
label of length 24: ABCDEFGHIJKLMNOPQRSTUV_9
label of length 5: AZ_09...................
label of length 24: ABCDEFGHIJKLMNOPQRSTUVWX
label of length 6: `A{@Z[..................
same label, the same: yes
same label, another last byte: no
same label, another 24th byte: no
same label, a prefix: no
same label, another length only: no
same label, in another case: yes
same label, no bytes and no label: yes
sound label, no label: yes
sound label, AMBER: yes
sound label, 24 bytes: yes
sound label, length 25: no
sound label, a byte behind the length: no
sound label, a zero inside the length: no
sound label, lower case: no
sound label, written in lower case: yes""".split("\n")

# the table: a word to its number, and which places are taken
class Table:
    def __init__(self):
        self.numbers = {}
        self.taken = set()
    def place(self, word):
        place = fnv1a(word.upper().encode()) % 128
        while place in self.taken:
            place = 0 if place == 127 else place + 1
        return place
    def find(self, word):
        if word.upper() in self.numbers:
            out.append("%s has number %d" % (word, self.numbers[word.upper()]))
        else:
            out.append("%s goes to place %d" % (word, self.place(word)))
    def put(self, word):
        self.find(word)
        self.taken.add(self.place(word))
        self.numbers[word.upper()] = len(self.numbers) + 1

def first(place, words):
    for word in words:
        assert fnv1a(word.encode()) % 128 == place, (word, fnv1a(word.encode()) % 128)

def case(put, absent):
    t = Table()
    for word in put: t.put(word)
    for word in put + absent: t.find(word)

first(32, ["AMBER", "SILVER", "RISE", "FALL", "FOREST"])
first(127, ["FLY_B", "TRAP_B", "RAIN_A", "FADE_A"])
first(0, ["SNOW2", "NOON3"])
case(["AMBER", "SILVER", "RISE", "FALL"], ["FOREST"])
t = Table()
t.find("silver")
for word in ["amber", "Silver"]: t.put(word)
for word in ["AMBER", "aMBER", "SILVER", "silver"]: t.find(word)
case(["FLY_B", "TRAP_B", "RAIN_A", "SNOW2"], ["FADE_A", "NOON3"])
case(["L%02d" % i for i in range(64)], ["L64"])
sys.stdout.write("\n".join(out) + "\n")
