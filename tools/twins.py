#!/usr/bin/env python3
"""twins.py: makes the maps that the program `twins` reads, and the lines that it must write.
Each map has a twin: the same map without what document 01 leaves unknown or reserved. Maps are made from items and tracks; a twin
is also found a second way, by taking the map's bytes apart, and the two must agree. It is written from document 01 and §11 and §12 of 02 alone.
Same seed, same files: crates/twins/data/*.gxf, crates/twins/stdout, and some of the pairs as a table for the checker, crates/map_newer/proofs/Outside.antt.
Run `rt fmt` afterwards."""
import os, random, struct

HERE = os.path.join(os.path.dirname(os.path.abspath(__file__)), '..', 'crates', 'twins')
MATERIAL_TAGS = range(0x40, 0x46)
TRACK_TAGS = range(0x4C, 0x53)
TYPES = [3, 4] + list(range(7, 19)) + list(range(20, 27))
MPEG = [11, 12, 20, 22, 23]
CODES = {0x50: list(range(1, 9)), 0x51: [1, 2, 4, 6], 0x52: [1, 2]}
GIVEN = [0xFFFFFFFF, 0xFFFFFFFE]

R = random.Random(360)

def some_bytes(n):
    return bytes(R.randrange(256) for _ in range(n))

def text(n=None):
    """a text with its closing 00"""
    return bytes(R.randrange(1, 128) for _ in range(R.choice([1, 2, 5, 12, 30]) if n is None else n)) + b'\0'

TEXT = 'Ver 1|Br 0.5|Ipg 1|Ppi 4|Bpiop 2|Pix 0|Cf 1|Cg 0|Sl 7|nl16 36|Vi 1|f1 1'.split('|')
NUMBERS = {}  # of each text that the auxiliary reader takes, the number of its aspect; any other text here lacks parameters or is malformed

def auxiliary():
    """a text that has every parameter, its lines in any order, with or without `ar`; or one that is malformed at its end"""
    ar = R.choice([None, 0, 1, 1, 7])
    lines = TEXT + ([] if ar is None else ['ar %d' % ar])
    R.shuffle(lines)
    v = ''.join(x + '\n' for x in lines).encode()
    if R.random() < .2:
        return v[:-1] + b'\0'
    NUMBERS[v + b'\0'] = 1 if ar == 1 else 0
    return v + b'\0'

def binary():
    """a 4D, its validity often 1"""
    v = bytearray(some_bytes(8))
    if R.random() < .6:
        v[3] = 0x40 + R.randrange(0x40)
    return bytes(v)

def aspect(kind, items):
    """4x3, 16x9 or - for unknown, as document 02 has it"""
    shown = {tag: v for tag, v, _ in items if tag in TRACK_TAGS}
    if shown.get(0x4C) == b'\0':
        return '-'
    n = None
    if kind in MPEG:
        n = NUMBERS.get(shown.get(0x4F))
    elif kind in (13, 14, 15, 16) and 0x4D in shown:
        bits = int.from_bytes(shown[0x4D], 'little')
        if bits >> 30 & 3 == 1:
            n = bits >> (4 if kind < 15 else 0) & 1
    return {None: '-', 0: '4x3', 1: '16x9'}[n]

def aspects(a):
    return ''.join(' ' + aspect(k, items) for k, _, items in a[3] if k in TYPES)

def number():
    return struct.pack('>I', R.choice([0, 1, R.randrange(1 << 32), 0xFFFFFFFF]))

def reserved_code(tag):
    while True:
        v = R.choice([0, 3, 5, 7, 9, 10, 0x80000000, 0xFFFFFFFD, R.randrange(1 << 32)])
        if v not in CODES[tag] + GIVEN:
            return struct.pack('>I', v)

def good_code(tag):
    return struct.pack('>I', R.choice(CODES[tag] + GIVEN))

# an item is (tag, value, stays)

def unknown(known):
    other = [t for t in range(256) if t not in known]
    # often a tag that the other section knows
    tag = R.choice(other + [t for t in list(MATERIAL_TAGS) + list(TRACK_TAGS) if t not in known] * 8)
    return (tag, some_bytes(R.choice([0, 0, 1, 1, 2, 4, 8, 17, R.randrange(256)]) if R.random() < .9 else 255), False)

def mixed(items, unknowns):
    items = list(items)
    R.shuffle(items)
    for u in unknowns:
        items.insert(R.randrange(len(items) + 1), u)
    return items

def material(strange):
    items = []
    if R.random() < .6:
        items.append((0x40, b'\0' if R.random() < .3 else text(), True))
    for tag in range(0x41, 0x46):
        if R.random() < .5:
            items.append((tag, number(), True))
    return mixed(items, [unknown(MATERIAL_TAGS) for _ in range(R.choice([0, 1, 2, 3]) if strange else 0)])

def track_items(kind, strange):
    items = []
    if R.random() < .8:
        items.append((0x4C, b'\0' if R.random() < .3 else text(), True))
    form = R.choice([None, 0x4D, 0x4F])
    if form and kind in TYPES and (0x4C, b'\0', True) not in items:
        # 4F for MPEG video and 4D for the rest; unlisted tracks, and those with a null name, may have either
        form = 0x4F if kind in MPEG else 0x4D
    if form == 0x4D:
        items.append((0x4D, binary(), True))
    if form == 0x4F:
        items.append((0x4F, R.choice([b'\0', text(), auxiliary(), auxiliary(), auxiliary()]), True))
    if R.random() < .4:
        items.append((0x4E, number(), True))
    for tag in (0x50, 0x51, 0x52):
        if R.random() < .7:
            bad = strange and R.random() < .4
            items.append((tag, reserved_code(tag) if bad else good_code(tag), not bad))
    return mixed(items, [unknown(TRACK_TAGS) for _ in range(R.choice([0, 0, 1, 2, 4]) if strange else 0)])

def a_map(strange=True):
    """(spare, second, material items, [(type, id, items)])"""
    ids = R.sample(range(64), R.choice([0, 1, 1, 2, 3, 5]))
    tracks = []
    for i in ids:
        known = not strange or R.random() < .7
        kind = R.choice(TYPES + MPEG + [13, 14, 15, 16]) if known else R.choice([t for t in range(128) if t not in TYPES])
        tracks.append((kind, i, [] if R.random() < .15 else track_items(kind, strange)))
    return (some_bytes(4), R.randrange(256), [] if R.random() < .1 else material(strange), tracks)

def coded(items):
    return b''.join(bytes([t, len(v)]) + v for t, v, _ in items)

def packed(spare, second, m, t, tail):
    body = bytes([0xE0, second]) + struct.pack('>H', len(m)) + m + struct.pack('>H', len(t)) + t
    zeros = -len(body) % 4
    fill = bytes(zeros) if tail is None else some_bytes(zeros) + some_bytes(4 * tail)
    n = 16 + len(body) + len(fill)
    return b'\0\0\0\0\1\xBC' + struct.pack('>I', n) + spare + b'\xE1\xE2' + body + fill

def written(a, tail=None):
    spare, second, m, tracks = a
    t = b''.join(bytes([0x80 + k, 0xC0 + i]) + struct.pack('>H', len(coded(its))) + coded(its) for k, i, its in tracks)
    return packed(spare, second, coded(m), t, tail)

def struck(a):
    spare, second, m, tracks = a
    return (spare, second, [i for i in m if i[2]], [(k, i, [x for x in its if x[2]]) for k, i, its in tracks if k in TYPES])

# the second way: from the bytes

def items_of(s):
    at = 0
    while at < len(s):
        n = s[at + 1]
        yield s[at], s[at + 2:at + 2 + n]
        at += 2 + n

def stays(tag, v):
    if tag not in TRACK_TAGS:
        return False
    return tag not in CODES or struct.unpack('>I', v)[0] in CODES[tag] + GIVEN

def struck_bytes(p):
    n = struct.unpack('>H', p[18:20])[0]
    m, rest = p[20:20 + n], p[20 + n:]
    n = struct.unpack('>H', rest[:2])[0]
    t, out = rest[2:2 + n], b''
    while t:
        kind, i, n = t[0], t[1], struct.unpack('>H', t[2:4])[0]
        if kind - 0x80 in TYPES:
            left = b''.join(bytes([tag, len(v)]) + v for tag, v in items_of(t[4:4 + n]) if stays(tag, v))
            out += bytes([kind, i]) + struct.pack('>H', len(left)) + left
        t = t[4 + n:]
    left = b''.join(bytes([tag, len(v)]) + v for tag, v in items_of(m) if tag in MATERIAL_TAGS)
    return packed(p[10:14], p[17], left, out, None)

def listed(a):
    return sum(1 for k, _, _ in a[3] if k in TYPES)

def line(name, p, q, a, b, alike):
    """of the packets p and q of the maps a and b"""
    return '%s: %d and %d bytes, %d tracks, %s:%s and%s\n' % (name, len(p), len(q), listed(a), 'alike' if alike else 'unlike', aspects(a), aspects(b))

def pairs(count):
    """maps and their twins"""
    out, said, packets = b'', '', []
    for k in range(count):
        a = a_map()
        p = written(a, R.choice([None, 0, 0, 1, 3]))
        q = written(struck(a))
        assert q == struck_bytes(p) and struck_bytes(q) == q, k
        out += p + q
        packets.append((p, q))
        said += line('pair %d' % (k + 1), p, q, a, struck(a), True)
    return out, said, packets

def full():
    """a material section of 65,535 bytes, nearly all of it unknown"""
    m = [(0x7F, bytes(249), False)] + [(0x7E, bytes(255), False)] * 253 + [(0x41, number(), True), (0x4C, bytes(255), False)]
    assert len(coded(m)) == 65535
    a = (bytes(4), 0xFF, m, [(10, 1, [(0x4C, b'A1\0', True)])])
    p, q = written(a), written(struck(a))
    assert q == struck_bytes(p)
    return p + q, line('pair 1', p, q, a, struck(a), True)

HEAD = """-- Maps and twins that were made outside (tools/twins.py): the twin is what `strike` leaves of the map, to the byte. Computed by the checker.
use Prim.Native.Nat.{ℕ}
use mathlib.Core.Path.{◌≡◌, refl}
use mathlib.Core.List.{List, [], ◌∷◌}
use Rattle.number.specs.Number.{be, be_bytes}
use Rattle.media_type.specs.MediaType.{known_type}
use Rattle.map_items.specs.Items as items
use Rattle.map_items.specs.Judge as judge
use Rattle.map_answer.specs.Answer as answer
use Rattle.map_tracks.specs.Tracks as tracks
use Rattle.map.specs.Map as map
use Rattle.map.specs.Encode as encode
use Rattle.map.specs.Parts as said
use Rattle.map_newer.specs.Strike as strike

-- a map and its twin, each as so many bytes and the number that they are
pub record Twins : Type 0 where
  pub map : List ℕ
  pub twin : List ℕ

abbrev pub Struck : List Twins → Type 0
Struck [] = Unit {0}
Struck (t ∷ ts) = (strike.strike t.map ≡ t.twin) × Struck ts

pub pairs : List Twins
pairs =
"""

UNFOLD = ('pairs strike.strike strike.struck strike.struck_track strike.kept strike.material_stays strike.track_stays strike.is_reserved said.listed_of said.parts_of said.opened '
          'encode.encode encode.packet_of encode.front encode.section_bytes encode.packet_length encode.padding encode.described be_bytes be items.split_items items.section_of items.items_bytes '
          'judge.form_of judge.is_known judge.has answer.value_of answer.code_of answer.allowed tracks.split_tracks tracks.tracks_of tracks.descriptions_bytes tracks.is_listed known_type map.layout_of map.after_material')

def table(packets, count):
    """some pairs of short maps, for the checker"""
    some = [(p, q) for p, q in packets if len(p) <= 240 and len(p) > len(q) + 8][:count]
    rows = ['    record { map = be_bytes %d 0x%s; twin = be_bytes %d 0x%s }\n' % (len(p), p.hex().upper(), len(q), q.hex().upper()) for p, q in some]
    proof = 'tt'
    for _ in some:
        proof = '(refl, %s)' % proof
    return HEAD + '    \u2237'.join(rows).replace('\u2237    record', '\u2237 record') + '    \u2237 []\n\npub pairs_struck : Struck pairs\nunfolding ' + UNFOLD + '\npairs_struck = ' + proof + '\n'

def swap(items, tag, value):
    return [(t, value if t == tag else v, s) for t, v, s in items]

def controls():
    """pairs of which the second says something else, each in one thing"""
    name, aux, mpeg = (0x4C, b'A1\0', True), (0x4D, bytes(range(8)), True), (0x4F, b'Ver 1\n\0', True)
    version, rate = (0x4E, b'\0\0\0\1', True), (0x50, b'\xFF\xFF\xFF\xFE', True)
    lines, fields = (0x51, b'\0\0\0\2', True), (0x52, b'\0\0\0\1', True)
    m = [(0x40, b'Clip\0', True), (0x41, bytes(4), True), (0x45, b'\0\0\1\0', True)]
    t = [name, aux, version, rate, lines, fields]
    u = [name, mpeg]
    base = (bytes(4), 0xFF, m, [(10, 1, t), (11, 2, u)])

    def with_m(items):
        return (bytes(4), 0xFF, items, base[3])

    def with_t(items):
        return (bytes(4), 0xFF, m, [(10, 1, items), (11, 2, u)])

    others = [
        with_m(swap(m, 0x40, b'Clap\0')), with_m(swap(m, 0x40, b'Clips\0')), with_m(m[1:]), with_m(swap(m, 0x41, b'\0\0\0\1')),
        with_m(m[:2]), with_m(m + [(0x43, bytes(4), True)]),
        with_t(swap(t, 0x4C, b'A2\0')), with_t(swap(t, 0x4C, b'\0')), with_t(t[1:]), with_t(swap(t, 0x4D, bytes(8))),
        with_t([x for x in t if x[0] != 0x4E]), with_t(swap(t, 0x4E, b'\0\0\0\2')), with_t(swap(t, 0x50, b'\xFF\xFF\xFF\xFF')),
        with_t([x for x in t if x[0] != 0x50]), with_t(swap(t, 0x50, b'\0\0\0\x09')), with_t(swap(t, 0x51, b'\0\0\0\4')), with_t(swap(t, 0x52, b'\0\0\0\2')),
        (bytes(4), 0xFF, m, [(10, 1, t), (11, 2, swap(u, 0x4F, b'Ver 2\n\0'))]),
        (bytes(4), 0xFF, m, [(11, 2, u), (10, 1, t)]), (bytes(4), 0xFF, m, [(10, 1, t)]), (bytes(4), 0xFF, m, [(10, 1, t), (11, 3, u)]),
        (bytes(4), 0xFF, m, [(10, 1, t), (12, 2, u)]), (bytes(4), 0xFF, m, base[3] + [(10, 7, [])]),
    ]
    others = [(base, a) for a in others]

    # the aspect's bit alone: of DV-based 25 and 50 Mb/s, and the `ar` of MPEG video
    def dv(kind, first):
        return (bytes(4), 0xFF, m, [(kind, 1, [name, (0x4D, bytes([first, 0, 0, 0x40]) + bytes(4), True)])])

    def mpeg_video(ar):
        v = ''.join(x + '\n' for x in TEXT + ['ar %d' % ar]).encode() + b'\0'
        NUMBERS[v] = ar
        return (bytes(4), 0xFF, m, [(11, 1, [name, (0x4F, v, True)])])

    others += [(dv(13, 0), dv(13, 16)), (dv(14, 16), dv(14, 0)), (dv(15, 0), dv(15, 1)), (dv(16, 1), dv(16, 0)), (mpeg_video(0), mpeg_video(1))]
    for a, b in others[-5:]:
        assert aspects(a) != aspects(b) and {aspects(a), aspects(b)} == {' 4x3', ' 16x9'}
    out, said = b'', ''
    for k, (a, b) in enumerate(others):
        p, q = written(a), written(b)
        out += p + q
        said += line('control %d' % (k + 1), p, q, a, b, False)
    return out, said

def main():
    os.makedirs(os.path.join(HERE, 'data'), exist_ok=True)
    said = ''
    out, lines, packets = pairs(240)
    for name, (out, lines) in (('pairs', (out, lines)), ('full', full()), ('controls', controls())):
        with open(os.path.join(HERE, 'data', name + '.gxf'), 'wb') as f:
            f.write(out)
        said += '%s.gxf\n%s' % (name, lines)
        print(name, len(out))
    with open(os.path.join(HERE, 'stdout'), 'w') as f:
        f.write(said)
    with open(os.path.join(HERE, '..', 'map_newer', 'proofs', 'Outside.antt'), 'w') as f:
        f.write(table(packets, 16))

if __name__ == '__main__':
    main()
