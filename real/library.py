"""The library, asked in three ways: ./gxf list, the program probe (docs/PROBE.md) and the control program in C."""
import os
import struct
import subprocess
from typing import NamedTuple, Optional

LIMIT = 65536        # bytes that list and the probe take at most
NO_TRACK = 64        # seek gives 16 for it, but the check's refusal first
TYPES = {188: "map", 191: "media", 251: "eos", 252: "flt", 253: "umf"}
PARAMETERS = "Ver Br Ipg Ppi Bpiop Pix Cf Cg Sl nl16 Vi f1 cbpg ar".split()


class Refused(NamedTuple):
    number: int
    place: int
    lacking: int = 0     # bytes, of 5 alone

    def __str__(self):
        return f"refused {self.number} {self.place}" + (f" {self.lacking}" if self.number == 5 else "")


class Packet(NamedTuple):
    at: int
    kind: str
    length: int


class Preamble(NamedTuple):
    type: int
    id: int
    field: int
    information: int
    timeline: int
    flags: int


class Track(NamedTuple):
    id: int
    type: int
    rate: Optional[int]
    lines: Optional[int]
    fields: Optional[int]
    version: Optional[int]
    name: Optional[tuple]     # place and stored length, as of the two below
    aux: Optional[tuple]
    text: Optional[tuple]
    aspect: Optional[int]     # 0 is 4x3, 1 is 16x9, nothing is unknown


class Map(NamedTuple):
    name: Optional[tuple]
    first: Optional[int]
    last: Optional[int]
    mark_in: Optional[int]
    mark_out: Optional[int]
    size: Optional[int]
    tracks: list


def request(function, numbers, strings):
    """A request to the probe, as docs/PROBE.md has it."""
    lent = b"".join(len(s).to_bytes(4, "little") + s for s in strings)
    return bytes([function]) + b"".join(n.to_bytes(8, "little") for n in numbers) + lent


def figure(tokens):
    word = next(tokens)
    return None if word == "-" else int(word)


def part(tokens):
    place = figure(tokens)
    return None if place is None else (place, int(next(tokens)))


def refusal(tokens):
    """The refusal that a line begins with, or nothing; on 5 it has a third figure."""
    if tokens[0] != "refused":
        return None
    return Refused(*map(int, tokens[1:4 if tokens[1] == "5" else 3]))


def stated_and_left(data, place):
    """The length that the header at a place states, and the bytes left from its first byte on."""
    return int.from_bytes(data[place + 6:place + 10], "big"), len(data) - place


def content(path):
    with open(path, "rb") as f:
        return f.read()


def map_of(tokens):
    words = iter(tokens[1:])
    count = int(next(words))
    material = [part(words)] + [figure(words) for _ in range(5)]
    tracks = []
    for _ in range(count):
        next(words)
        tracks.append(Track(*[figure(words) for _ in range(6)], *[part(words) for _ in range(3)], figure(words)))
    return Map(*material, tracks)


class Library:
    def __init__(self, top):
        self.gxf = [os.path.join(top, "gxf")]
        self.probe = [os.path.join(top, "target/bin/probe")]
        self.control = [os.path.join(top, "target/c/control")]
        self.torn = []       # every 5 that was given, and the bytes that lack by the header at its place

    def held(self, answer, data):
        """The answer. A 5 is noted beside what the lent bytes say: the length stated there less the bytes left."""
        if isinstance(answer, Refused) and answer.number == 5:
            stated, left = stated_and_left(data, answer.place)
            self.torn.append((answer, stated - left))
        return answer

    def ask(self, function, numbers, *strings):
        """The refusal, or the tokens of the probe's line."""
        run = subprocess.run(self.probe, input=request(function, numbers, strings), stdout=subprocess.PIPE, check=True)
        tokens = run.stdout.decode("ascii").split()
        return self.held(refusal(tokens), strings[0]) or tokens

    def listing(self, path):
        lines = subprocess.run([*self.gxf, "list", path], stdout=subprocess.PIPE, check=True, text=True).stdout.splitlines()
        self.held(refusal(lines[-1].split()), content(path))
        return lines

    def ask_c(self, path, distance=0, track=NO_TRACK, field=0):
        """What the control program says of a stream of any length: its packets, then the answer to a seek."""
        run = subprocess.run([*self.control, path, str(distance), str(track), str(field)], stdout=subprocess.PIPE, text=True)
        lines = [line.split() for line in run.stdout.splitlines()]
        packets = [Packet(int(a), kind, int(n)) for a, kind, n in (x for x in lines if x[0].isdigit())]
        answer = lines[-1][1:]
        return packets, self.held(refusal(answer), content(path)) or int(answer[0])

    def check_c(self, path):
        """The number of packets, or the refusal, by way of the seek in C, which checks first."""
        packets, answer = self.ask_c(path)
        return len(packets) if answer == Refused(16, 0) else answer

    def check(self, path, data):
        """The number of packets, or the refusal; of a stream too long for the probe from C."""
        if len(data) > LIMIT:
            return self.check_c(path)
        answer = self.ask(0x09, [], data)
        return answer if isinstance(answer, Refused) else int(answer[1])

    def seek(self, path, data, track, field):
        if len(data) > LIMIT:
            return self.ask_c(path, 0, track, field)[1]
        answer = self.ask(0x0A, [track, field], data)
        return answer if isinstance(answer, Refused) else int(answer[1])

    def read_map(self, lent):
        answer = self.ask(0x03, [0, 64], lent)
        return answer if isinstance(answer, Refused) else map_of(answer)

    def name(self, lent, track):
        answer = self.ask(0x04, [0, track], lent)
        return answer if isinstance(answer, Refused) else bytes.fromhex(answer[3][1:]).decode("ascii")

    def parameters(self, text):
        """The auxiliary text's parameters by name; the probe gives Br as the bits of a float."""
        answer = self.ask(0x06, [], text)
        if isinstance(answer, Refused):
            return answer
        values = dict(zip(PARAMETERS, answer[1:]))
        return values | {"Br": str(struct.unpack(">d", bytes.fromhex(values["Br"]))[0])}

    def position(self, lent, at, distance):
        answer = self.ask(0x07, [at, distance], lent)
        return answer if isinstance(answer, Refused) else int(answer[1])

    def preamble(self, packet):
        """The preamble of a media packet; of one too long for the probe, nothing."""
        if len(packet) > LIMIT:
            return None
        answer = self.ask(0x08, [0], packet)
        return answer if isinstance(answer, Refused) else Preamble(*map(int, answer[1:]))

    def walk(self, lent, steps):
        """The packets that a walker meets, and the refusal that ends them."""
        tokens = iter(self.ask(0x0F, [steps], lent)[1:])
        at, packets = 0, []
        for word in tokens:
            first, second, third = (int(next(tokens)) for _ in range(3))
            if word == "refused":
                return packets, self.held(Refused(first, second, third if first == 5 else 0), lent)
            packets.append(Packet(at, TYPES.get(first, "other"), second))
            at = third
        return packets, None
