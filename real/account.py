"""What the library says of one stream: gathered, and put into lines."""
from collections import Counter
from typing import NamedTuple

from library import LIMIT, Preamble, Refused, content

ASPECT = {0: "4x3", 1: "16x9", None: "unknown"}


class Told(NamedTuple):
    path: str
    data: bytes
    lent: bytes           # what the probe is lent: the stream, or as much of it as the probe takes
    listing: list
    packets: list         # by the control program, whose streams may have any length
    verdict: object       # the number of packets, or a refusal
    map: object           # of the first packet, or a refusal
    names: dict           # by track ID
    texts: dict           # parameters of the auxiliary text by track ID
    media: list           # media packets, each with its preamble, or with nothing where the packet is too long for the probe


def bytes_at(data, place_and_length):
    place, length = place_and_length
    return data[place:place + length]


def texts_of(library, lent, tracks):
    return {t.id: library.parameters(bytes_at(lent, t.text)) for t in tracks if t.text}


def gather(library, path):
    data = content(path)
    lent = data[:LIMIT]
    packets, _ = library.ask_c(path)
    chart = library.read_map(lent)
    tracks = [] if isinstance(chart, Refused) else chart.tracks
    names = {t.id: library.name(lent, t.id) for t in tracks}
    media = [(p, library.preamble(data[p.at:p.at + p.length])) for p in packets if p.kind == "media"]
    return Told(path, data, lent, library.listing(path), packets, library.check(path, data), chart, names, texts_of(library, lent, tracks), media)


def count(kinds):
    return ", ".join(f"{kind} {n}" for kind, n in Counter(kinds).items())


def verdict(answer):
    return str(answer) if isinstance(answer, Refused) else f"accepted, {answer} packets"


def optional(value):
    return "-" if value is None else str(value)


def material_line(told):
    m = told.map
    name = bytes_at(told.lent, m.name)[:-1].decode("ascii") if m.name else "no name"
    return f"map: {len(m.tracks)} tracks, {short(name)}, fields {m.first} to {m.last}, marks {m.mark_in} to {m.mark_out}, size {m.size}"


def short(text):
    return text if len(text) <= 60 else text[:40] + "..." + text[-10:]


def first_media_line(told, track):
    """The first media packet of a track, by its preamble."""
    for packet, preamble in told.media:
        if isinstance(preamble, Preamble) and preamble.id == track.id:
            info = preamble.information.to_bytes(4, "big").hex(" ")
            return f"first media packet at {packet.at}: field {preamble.field}, information {info}, time line {preamble.timeline}, flags {preamble.flags}"
    too_long = sum(preamble is None for _, preamble in told.media)
    return "first media packet: none" + (f" among those that the probe takes; too long for it: {too_long}" if too_long else "")


def track_lines(library, told, track):
    codes = f"rate {optional(track.rate)}, lines {optional(track.lines)}, fields {optional(track.fields)}, aspect {ASPECT[track.aspect]}"
    aux = ", 4D " + bytes_at(told.lent, track.aux).hex(" ") if track.aux else ""
    yield f"track {track.id}: type {track.type}, {codes}, version {optional(track.version)}, {told.names[track.id]}{aux}"
    yield "  " + first_media_line(told, track)
    sought = library.seek(told.path, told.data, track.id, told.map.first or 0)
    yield f"  seek of field {told.map.first or 0}: " + (str(sought) if isinstance(sought, Refused) else f"at {sought}")


def text_line(texts):
    """The auxiliary text of the first track that has one."""
    if not texts:
        return "text: no track has one"
    track, parameters = next(iter(texts.items()))
    return f"text of track {track}: " + (str(parameters) if isinstance(parameters, Refused) else " ".join(f"{k} {v}" for k, v in parameters.items()))


def locator_line(library, told):
    tables = [p.at for p in told.packets if p.kind == "flt"]
    if not tables:
        return "locator: none"
    answer = library.position(told.lent, tables[0], 0)
    return "locator, distance 0: " + (str(answer) if isinstance(answer, Refused) else f"position {answer}")


def lines(library, told):
    """The account, line by line."""
    long = len(told.data) > LIMIT
    *listed, last = told.listing
    yield f"list: {last}" + (f", as it has {len(told.data)} bytes" if long else "") + (f": {count(line.split()[1] for line in listed)}" if listed else "")
    if long:
        yield f"check of its first {LIMIT} bytes: {verdict(library.check(told.path, told.lent))}"
    yield f"check{', from C' if long else ''}: {verdict(told.verdict)}"
    if not listed:
        yield f"packets, from C: {count(p.kind for p in told.packets)}"
    walked, end = library.walk(told.lent, len(told.packets) + 1)
    yield f"walker: {len(walked)} steps, then {end}"
    if isinstance(told.map, Refused):
        yield f"map: {told.map}"
    else:
        yield material_line(told)
        for track in told.map.tracks:
            yield from track_lines(library, told, track)
        yield text_line(told.texts)
    yield locator_line(library, told)
