"""What the library says of a stream, held against what ffprobe says of it.

Each difference gets the kind that explains it, if its condition holds; docs/REAL.md has the kinds as headings."""
from fractions import Fraction
from typing import NamedTuple

import reader
from account import ASPECT, bytes_at
from library import Preamble, Refused

# Table 5: media type to the name that ffmpeg has for the coding
CODING = {3: "mjpeg", 4: "mjpeg", 7: "data", 8: "data", 9: "pcm_s24le", 10: "pcm_s16le", 11: "mpeg2video", 12: "mpeg2video", 13: "dvvideo", 14: "dvvideo",
          15: "dvvideo", 16: "dvvideo", 17: "ac3", 18: "pcm_s24le", 20: "mpeg2video", 21: "data", 22: "mpeg1video", 23: "mpeg1video", 24: "data",
          25: "dvvideo", 26: "h264"}
TIME_CODE, MPEG, JPEG = (7, 8, 24), (11, 12, 20, 22, 23), (3, 4)
# Table 6: frames a second, lines per frame
RATE = {1: Fraction(60), 2: Fraction(60000, 1001), 3: Fraction(50), 4: Fraction(30), 5: Fraction(30000, 1001), 6: Fraction(25), 7: Fraction(24), 8: Fraction(24000, 1001)}
LINES = {1: 525, 2: 625, 4: 1080, 6: 720}
# the picture heights of a system of lines, with and without lines of the blanking
SYSTEM = {480: 525, 512: 525, 576: 625, 608: 625, 1080: 1080, 720: 720}
UMF = ("timecode_at_mark_in", "timecode_at_mark_out")
TIME_TAGS = ("timecode", *UMF)
# Tables 8 and 9: media type to the bit of the 4D that is the aspect
ASPECT_BIT = {13: 4, 14: 4, 15: 0, 16: 0}
# Table 7: Cf to ffmpeg's names of 4:2:0 and 4:2:2
CHROMA = {"1": "yuv420p", "2": "yuv422p"}


class Found(NamedTuple):
    topic: str
    ours: object
    theirs: object
    kind: str = ""    # what explains a difference, or nothing
    track: object = None

    def same(self):
        return self.ours == self.theirs

    def values(self):
        """Both sides in words; of two lists where they first part."""
        if not isinstance(self.ours, list):
            return f"library {self.ours}, ffprobe {self.theirs}"
        apart = [i for i, pair in enumerate(zip(self.ours, self.theirs)) if pair[0] != pair[1]]
        if not apart:
            return f"library {len(self.ours)} values, ffprobe {len(self.theirs)}"
        return f"{len(apart)} of {len(self.ours)}, the first at {apart[0]}: library {self.ours[apart[0]]}, ffprobe {self.theirs[apart[0]]}"


def fraction(text):
    """A rate of ffprobe; nothing where it says 0/0."""
    top, bottom = map(int, text.split("/"))
    return Fraction(top, bottom) if bottom else None


def coding(track, stream):
    yield Found("coding", CODING[track.type], stream.get("codec_name", stream.get("codec_type")))


def rates(track, stream, durations):
    frames = RATE.get(track.rate)
    if frames is None:
        return
    yield Found("field time", 1 / (2 * frames), fraction(stream["time_base"]))
    for topic in ("r_frame_rate", "avg_frame_rate"):
        theirs = fraction(stream[topic])
        if theirs is not None:
            yield Found(topic, frames, theirs, "field-rate" if theirs == 2 * frames else "")
    for duration in durations:
        yield Found("fields a packet", track.fields, duration, "field-rate" if (track.fields, duration) == (2, 1) else "")


def raster(track, stream):
    if "height" not in stream:
        return
    yield Found("lines", LINES.get(track.lines), SYSTEM.get(stream["height"]))
    if "field_order" in stream:
        theirs = 1 if stream["field_order"] == "progressive" else 2
        yield Found("fields per frame", track.fields, theirs, "progressive" if (track.fields, theirs) == (2, 1) else "")


def text(stream, parameters):
    """The auxiliary text against what ffprobe found in the pictures."""
    if isinstance(parameters, Refused):
        yield Found("auxiliary text", str(parameters), "read")
    elif parameters is not None:
        yield Found("encoded lines", 16 * int(parameters["nl16"]), stream.get("height"))
        yield Found("colour", CHROMA[parameters["Cf"]], stream.get("pix_fmt"))


def left_out(told, track):
    """What explains that a record does not have the pictures' aspect: the map has no place for it, the text no `ar`, or the valid 4D its bit not set."""
    if track.type in JPEG and track.aspect is None:
        return "no-aspect"
    if track.aspect != 0:
        return ""
    if track.type in MPEG and track.text:
        return "" if b"\nar " in b"\n" + bytes_at(told.lent, track.text) else "aspect"
    if track.type in ASPECT_BIT and track.aux:
        bits = int.from_bytes(bytes_at(told.lent, track.aux), "little")
        is_set = bits >> ASPECT_BIT[track.type] & 1
        return "dv-aspect" if bits >> 30 & 3 == 1 and not is_set else ""
    return ""


def aspect(told, track, stream):
    """The record's aspect against the one that ffprobe found in the pictures, where either says one."""
    theirs = stream.get("display_aspect_ratio")
    if track.aspect is not None or theirs is not None:
        yield Found("aspect", ASPECT[track.aspect].replace("x", ":"), theirs, left_out(told, track))


def extent(chart, stream):
    if "start_pts" in stream:
        yield Found("first field", chart.first, stream["start_pts"])
    if "duration_ts" in stream:
        yield Found("last field", chart.last, chart.first + stream["duration_ts"])


def by_track(told, read):
    """All that the map says of its tracks; the tracks of the map are ffprobe's streams in their order."""
    chart = told.map
    yield Found("tracks", len(chart.tracks), len(read.streams))
    for track, stream in zip(chart.tracks, read.streams):
        durations = {p["duration"] for p in read.packets if p["stream_index"] == stream["index"] and "duration" in p}
        for found in (*coding(track, stream), *rates(track, stream, durations), *raster(track, stream), *text(stream, told.texts.get(track.id)),
                      *aspect(told, track, stream), *extent(chart, stream)):
            yield found._replace(track=track.id)


def time_code(aux):
    """Table 13: fields, seconds, minutes, hours with the drop-frame flag; frames are pairs of fields."""
    mark = ";" if aux[3] & 0x20 else ":"
    return f"{aux[3] & 0x1f:02}:{aux[2]:02}:{aux[1]:02}{mark}{aux[0] // 2:02}"


def names(told, read):
    """The map's names against all that ffprobe has in tags, its time codes aside."""
    ours = (told.map.name is not None) + sum(isinstance(name, str) for name in told.names.values())
    theirs = sum(len(s.get("tags", {})) for s in read.streams) + sum(k not in TIME_TAGS for k in read.tags)
    yield Found("number of names", ours, theirs, "names" if theirs == 0 else "")


def material(told, read):
    """What the map says of the material; two of ffprobe's tags come from the UMF packet, which the library does not open."""
    chart = told.map
    yield Found("size in 1,024 bytes", chart.size, read.size // 1024, "size" if chart.size == 0 else "")
    codes = [t for t in chart.tracks if t.type in TIME_CODE and t.aux]
    yield Found("time code", time_code(bytes_at(told.lent, codes[0].aux)) if codes else None, read.tags.get("timecode"))
    yield Found("time code at the marks", "not read", " to ".join(read.tags[t] for t in UMF if t in read.tags), "umf")


def carried(library, told, read):
    """Track and field of ffprobe's packets, by the preamble that stands at their place; of a packet too long for the probe they are those that ffprobe
    says if the seek of them ends at that place, or unknown. In a refused stream nothing can be sought, and such packets are left out."""
    known = {p.at: (m.id, m.field) for p, m in told.media if isinstance(m, Preamble)}
    for q in read.packets:
        if place(q) in known:
            yield known[place(q)], q
        elif not isinstance(told.verdict, Refused):
            pair = (told.map.tracks[q["stream_index"]].id, q["dts"])
            yield pair if library.seek(told.path, told.data, *pair) == place(q) else (None, None), q


def place(packet):
    """ffprobe gives the place of the media data: header and preamble stand before it."""
    return int(packet["pos"]) - 32


def packets(library, told, read):
    """Media packets, one by one in the order of the stream."""
    theirs = sorted(read.packets, key=place)
    yield Found("number of media packets", len(told.media), len(theirs))
    yield Found("places", [p.at for p, _ in told.media], [place(q) for q in theirs])
    yield Found("lengths", [p.length - 32 for p, _ in told.media], [int(q["size"]) for q in theirs])
    pairs = list(carried(library, told, read))
    if pairs:
        yield Found("track numbers", [track for (track, _), _ in pairs], [q["stream_index"] for _, q in pairs])
        yield Found("field numbers", [field for (_, field), _ in pairs], [q["dts"] for _, q in pairs])
        timed = [(field, q["pts"]) for (_, field), q in pairs if "pts" in q]
        if timed:
            yield Found("presentation times", [field for field, _ in timed], [pts for _, pts in timed])
    yield from preambles([(m, q) for (_, m), q in zip(told.media, theirs) if isinstance(m, Preamble)])


def preambles(pairs):
    """What else the preambles say of the media packets; each beside ffprobe's packet."""
    if pairs:
        yield Found("time line numbers", [m.timeline if m.flags & 1 else m.field for m, _ in pairs], [q["dts"] for _, q in pairs])
    mpeg = [(m.information, q) for m, q in pairs if m.type in MPEG]
    if mpeg:
        kind = "picture-code" if all(i >> 24 & 3 == 0 for i, _ in mpeg) else ""
        yield Found("I pictures", [i >> 24 & 3 == 1 for i, _ in mpeg], ["K" in q["flags"] for _, q in mpeg], kind)
        kind = "unpadded-size" if all(-(i & 0xFFFFFF) // 4 == -int(q["size"]) // 4 for i, q in mpeg) else ""
        yield Found("picture sizes", [i & 0xFFFFFF for i, _ in mpeg], [int(q["size"]) for _, q in mpeg], kind)
    jpeg = [(m.information >> 24, q) for m, q in pairs if m.type in JPEG]
    if jpeg:
        kind = "no-blocks" if all(blocks == 0 for blocks, _ in jpeg) else ""
        yield Found("blocks of 4,096 bytes", [blocks for blocks, _ in jpeg], [-(-int(q["size"]) // 4096) for _, q in jpeg], kind)


def locator(library, told, field, at):
    """The table's point for a field must not lie behind its packet. Step and distance are those of Table 14 (docs/DECISIONS.md, R1)."""
    chart = told.map
    distance = field - chart.first - (chart.last - chart.first) // 1000 - 1
    tables = [p.at for p in told.packets if p.kind == "flt"]
    if tables and distance >= 0:
        point = library.position(told.lent, tables[0], distance)
        behind = isinstance(point, Refused) or point > at
        yield Found(f"locator of field {field}", str(point) if behind else "not behind", "not behind")


def seeks(library, told, read):
    """A seek of the field in the middle, and of the field after it, which no packet carries: no track of ffmpeg's has fields per frame 1."""
    middle = read.packets[len(read.packets) // 2]
    yield from locator(library, told, middle["dts"], place(middle))
    step = fraction(read.streams[middle["stream_index"]]["time_base"])
    track = told.map.tracks[middle["stream_index"]].id
    for field in (middle["dts"], middle["dts"] + 1):
        ours = library.seek(told.path, told.data, track, field)
        theirs = reader.seek(told.path, float(field * step))
        elsewhere = theirs is None or any(place(q) == theirs and q["dts"] != field for q in read.packets)
        yield Found(f"seek of field {field}", ours, theirs, "no-such-field" if ours == Refused(16, 0) and elsewhere else "", track)


def why(data, refusal):
    """What a refused stream has: too many packets without a map, or a text against one of its rules. 29 is not among them, and would be left
    unexplained: in these streams 4F stands on tracks of MPEG video alone, and 4D on every other."""
    if refusal.number == 20:
        return "hundred-packets"
    if refusal.number != 11:
        return ""
    value = data[refusal.place + 2:][:data[refusal.place + 1]]
    if any(byte > 0x7F for byte in value):
        return "not-ascii"
    return "zeros-in-name" if value.endswith(b"\0") else "name-too-long"


def all_of(library, told, read):
    refused = isinstance(told.verdict, Refused)
    yield Found("verdict", str(told.verdict) if refused else "read", "read" if read.status == 0 and read.packets else "not read", why(told.data, told.verdict) if refused else "")
    if not isinstance(told.map, Refused):
        yield from by_track(told, read)
        yield from names(told, read)
        yield from material(told, read)
    yield from packets(library, told, read)
    if not refused:
        yield from seeks(library, told, read)
