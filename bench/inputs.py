#!/usr/bin/env python3
# What is counted on:
#   inputs.py stream FILE PACKETS EXTRA   a stream of so many packets, media with so many bytes of data behind the preamble, a map every 99; and FILE.book,
#                                         its seek book. It prints the number of media packets
#   inputs.py progressive FILE PACKETS    the same without such bytes, but the track has fields per frame 1, the numbers are even, and the records have the 64
#   inputs.py map FILE TRACKS             a map of so many tracks
#   inputs.py bad-map FILE TRACKS         the same, but the last item of the last track has another size
#   inputs.py cut FILE FROM               the first half of a file's bytes
#   inputs.py bad-book FILE FROM          a book whose last record has another mark
import struct
import sys


def packet(kind, payload):
    payload += bytes(-len(payload) % 4)
    return b'\0\0\0\0\1' + bytes([kind]) + struct.pack('>I', 16 + len(payload)) + bytes(4) + b'\xe1\xe2' + payload


def item(tag, value):
    return bytes([tag, len(value)]) + value


def section(value):
    return struct.pack('>H', len(value)) + value


# the map of the paper's bench readings: track 1, type 10
MAP = packet(0xBC, bytes.fromhex('E0FF0006410400000000000F8AC1000B4C03413100' '5004FFFFFFFE'))
# the same track with fields per frame 1
PROGRESSIVE = packet(0xBC, bytes.fromhex('E0FF000641040000000000158AC100114C03413100' '5004FFFFFFFE' '520400000001'))


def stream(name, packets, extra, progressive):
    head = PROGRESSIVE if progressive else MAP
    out = [head, packet(0xFD, b'')]
    at = sum(map(len, out))
    book = []
    since = 1
    while len(out) < packets - 1:
        if since == 98:
            out.append(head)
            since = 0
        else:
            field = len(book) * (2 if progressive else 1)
            out.append(packet(0xBF, bytes([10, 1]) + struct.pack('>III', field, 0, field) + bytes(2 + extra)))
            book.append(struct.pack('<2sBBIQ', b'GX', 1, 10 + (64 if progressive else 0), field, at))
            since += 1
        at += len(out[-1])
    out.append(packet(0xFB, b''))
    write(name, b''.join(out))
    write(name + '.book', b''.join(book))
    print(len(book))


# as ffmpeg's muxer fills a track: one in four is MPEG-2 with its text, the others sound; beside that an unknown item in every second one
AUXILIARY = b'Ver 1\nBr 500000.000000\nIpg 1\nPpi 0\nBpiop 0\nPix 0\nCf 1\nCg 0\nSl 20\nnl16 30\nVi 1\nf1 1\n\0'


def track(number, last):
    mpeg = number % 4 == 0
    items = [item(0x4C, b'EXT:/PDR/default/ES.%02d\0' % number), item(0x4F, AUXILIARY) if mpeg else item(0x4D, bytes(8)), item(0x4E, bytes(4))]
    items += [item(0x50, struct.pack('>I', 5)), item(0x51, struct.pack('>I', 1))]
    if number % 2 == 1:
        items.append(item(0x7E, bytes(6)))
    items.append(item(0x52, last))
    return bytes([0x80 + (11 if mpeg else 10), 0xC0 + number]) + section(b''.join(items))


def long_map(name, tracks, last):
    material = item(0x40, b'EXT:/PDR/default/clip.gxf\0') + b''.join(item(0x41 + i, struct.pack('>I', 100 * i)) for i in range(5)) + item(0x7E, bytes(6))
    listed = b''.join(track(i, last if i == tracks - 1 else struct.pack('>I', 2)) for i in range(tracks))
    write(name, packet(0xBC, b'\xe0\xff' + section(material) + section(listed)))


def read(name):
    with open(name, 'rb') as f:
        return f.read()


def write(name, data):
    with open(name, 'wb') as f:
        f.write(data)


def main():
    what, name, rest = sys.argv[1], sys.argv[2], sys.argv[3:]
    if what == 'stream':
        stream(name, int(rest[0]), int(rest[1]), False)
    elif what == 'progressive':
        stream(name, int(rest[0]), 0, True)
    elif what == 'map':
        long_map(name, int(rest[0]), struct.pack('>I', 2))
    elif what == 'bad-map':
        long_map(name, int(rest[0]), bytes(3))
    elif what == 'cut':
        whole = read(rest[0])
        write(name, whole[:len(whole) // 2])
    elif what == 'bad-book':
        whole = read(rest[0])
        write(name, whole[:-16] + b'XG' + whole[-14:])


main()
