"""./gxf real: makes GXF streams with ffmpeg, and tells what the library and ffmpeg's own reader say of each."""
import os
import re
import shlex
import subprocess
import sys
from collections import Counter

import account
import compare
import reader
import streams
from library import Library, Refused, refusal, stated_and_left


def explained(top):
    """The kinds of difference that docs/REAL.md explains: its headings of the third rank."""
    with open(os.path.join(top, "docs/REAL.md"), encoding="utf-8") as f:
        return set(re.findall(r"^### (\S+)$", f.read(), re.M))


def says(read):
    return "".join(f"; says: {line}" for line in read.says)


def show_same(found):
    """The topics in which both say the same, each with its tracks."""
    topics = {}
    for f in found:
        if f.same():
            topics.setdefault(f.topic, []).append(f.track)
    print("  same: " + ", ".join(topic if tracks == [None] else f"{topic} ({' '.join(map(str, tracks))})" for topic, tracks in topics.items()))


def show_different(found, kinds):
    for f in found:
        if not f.same():
            of = "" if f.track is None else f" of track {f.track}"
            print(f"  differs: {f.topic}{of}: {f.values()} [{f.kind if f.kind in kinds else 'unexplained'}]")


def one(library, stream, folder, kinds):
    """Makes a stream and tells of it; gives what the library told, and what was compared."""
    path = streams.make(stream, folder)
    told = account.gather(library, path)
    read = reader.read(path)
    print(f"\n{account.short(stream.name)}: {stream.what}\n  ffmpeg {shlex.join(streams.asked(stream))}")
    for line in account.lines(library, told):
        print(f"  {line}")
    print(f"  ffprobe: streams {len(read.streams)}, packets {len(read.packets)}{says(read)}")
    found = list(compare.all_of(library, told, read))
    show_same(found)
    show_different(found, kinds)
    return told, found


def ends_in(packets, size):
    """The refusal of an accepted stream that is cut to so many bytes, by the packet that they end in: 5, if its header is there, with its length less
    the bytes left."""
    packet = next(p for p in packets if p.at <= size < p.at + p.length)
    left = size - packet.at
    if left < 16:
        return Refused(1, packet.at) if left else Refused(18, size)
    return Refused(5, packet.at, packet.length - left)


def lacking(answer, data):
    """How the bytes lacking come about, in words; of 5 alone."""
    if not isinstance(answer, Refused) or answer.number != 5:
        return ""
    stated, left = stated_and_left(data, answer.place)
    return f" ({stated} stated less {left} left)"


def damage(library, told, byte):
    """Two damaged copies of a stream, and what either side says of each. List, probe and C must say the same, and of the cut one what is known of it."""
    media = [p.at for p in told.packets if p.kind == "media"]
    changed = bytearray(told.data)
    changed[media[len(media) // 2] + byte] ^= 4
    half = len(told.data) // 2
    copies = [(f"cut at {half}", told.data[:half], ends_in(told.packets, half)), (f"byte {media[len(media) // 2] + byte} changed", bytes(changed), None)]
    for what, data, known in copies:
        path = told.path.replace(".gxf", "_damaged.gxf")
        with open(path, "wb") as f:
            f.write(data)
        read = reader.read(path)
        verdict = library.listing(path)[-1]
        tokens = verdict.split()
        listed = refusal(tokens) or int(tokens[1])
        others = [library.check(path, data), library.check_c(path)]
        same = others == [listed, listed] and known in (None, listed)
        told_otherwise = "" if same else f" [probe {others[0]}, C {others[1]}, known {known}]"
        print(f"  {os.path.basename(told.path)}, {what}: list: {verdict}{lacking(listed, data)}{told_otherwise}; "
              f"ffprobe: {len(read.packets)} of {len(media)} packets, status {read.status}{says(read)}")
        yield verdict, read.status, same


def numbers(verdicts):
    """Verdicts, counted: accepted, and refused by number."""
    counted = Counter(f"refused with {v.split()[1]}" if v.startswith("refused") else "accepted" for v in verdicts)
    return ", ".join(f"{what}: {n}" for what, n in sorted(counted.items()))


def summary(tolds, found, damaged, torn, kinds):
    """The last lines; gives the number of differences that nothing explains, and of wrong figures."""
    different = [f for f in found if not f.same()]
    unexplained = [f for f in different if f.kind not in kinds]
    by_kind = ", ".join(f"{kind}: {n}" for kind, n in sorted(Counter(f.kind for f in different if f.kind in kinds).items()))
    print(f"\nstreams: {len(tolds)}; list: {numbers(t.listing[-1] for t in tolds)}; whole: {numbers(str(t.verdict) for t in tolds)}")
    print(f"damaged copies: {len(damaged)}; list: {numbers(v for v, _, _ in damaged)}; ffprobe: read with status 0 {sum(s == 0 for _, s, _ in damaged)}")
    otherwise = sum(not same for _, _, same in damaged)
    wrong = sum(answer.lacking != lacks for answer, lacks in torn)
    print(f"refusals with 5: {len(torn)}, wrong in the bytes lacking {wrong}; damaged copies not refused as known, or not alike by list, probe and C: {otherwise}")
    print(f"comparisons: {len(found)}, same {len(found) - len(different)}, differing {len(different)}, unexplained {len(unexplained)}; explained in docs/REAL.md: {by_kind}")
    return len(unexplained) + otherwise + wrong


def main(top):
    library = Library(top)
    folder = os.path.join(top, "target/real")
    os.makedirs(folder, exist_ok=True)
    kinds = explained(top)
    version = subprocess.run(["ffmpeg", "-version"], stdout=subprocess.PIPE, check=True, text=True).stdout.split()[2]
    print(f"ffmpeg {version}")
    results = {s.name: one(library, s, folder, kinds) for s in streams.STREAMS}
    print("\nDamaged copies")
    damaged = [v for name, byte in streams.DAMAGED for v in damage(library, results[name][0], byte)]
    unexplained = summary([told for told, _ in results.values()], [f for _, found in results.values() for f in found], damaged, library.torn, kinds)
    return 1 if unexplained else 0


try:
    sys.exit(main(*sys.argv[1:]))
except subprocess.CalledProcessError as failed:
    print(f"real: {failed}", file=sys.stderr)
    sys.exit(2)
