"""The streams: what ffmpeg's GXF muxer is asked for, and the copies that are damaged on purpose."""
import os
import subprocess
from typing import NamedTuple

PAL, NTSC = "size=720x576:rate=25", "size=720x480:rate=30000/1001"
GREY = "color=gray:"       # pictures of one colour are small
MOVING = "testsrc2="       # pictures that move
MPEG2, MPEG1 = "-c:v mpeg2video", "-c:v mpeg1video"


class Stream(NamedTuple):
    name: str          # of the file, without .gxf; the muxer makes the material's name of it
    what: str
    picture: str       # a source of ffmpeg's lavfi, or none
    tones: int         # audio tracks
    options: str


STREAMS = [
    Stream("pal_one_frame", "MPEG-2, 625 lines, one frame", GREY + PAL, 0, f"{MPEG2} -b:v 1M -frames:v 1"),
    Stream("pal_mpeg2", "MPEG-2, 625 lines, I and P pictures", GREY + PAL, 0, f"{MPEG2} -b:v 1M -g 6 -frames:v 12"),
    Stream("pal_mpeg2_b", "MPEG-2, 625 lines, I, P and B pictures", MOVING + PAL, 0, f"{MPEG2} -q:v 31 -g 6 -bf 2 -frames:v 7"),
    Stream("ntsc_mpeg2", "MPEG-2, 525 lines", GREY + NTSC, 0, f"{MPEG2} -b:v 1M -frames:v 9"),
    Stream("pal_422_intra", "MPEG-2 4:2:2, 625 lines, I pictures only", GREY + PAL, 0, f"{MPEG2} -pix_fmt yuv422p -g 1 -q:v 31 -frames:v 4"),
    Stream("pal_interlaced", "MPEG-2, 625 lines, interlaced, 16:9", MOVING + PAL, 0,
           f"{MPEG2} -flags:v +ildct+ilme -top 1 -aspect 16:9 -q:v 31 -frames:v 2"),
    Stream("pal_vbi", "MPEG-2, 625 lines with 32 of the blanking", GREY + "size=720x608:rate=25", 0, f"{MPEG2} -b:v 1M -frames:v 3"),
    Stream("ntsc_film", "MPEG-2 of 23.98 frames a second, 480 lines", GREY + "size=720x480:rate=24000/1001", 0, f"{MPEG2} -frames:v 6"),
    Stream("pal_mpeg1", "MPEG-1, 625 lines", GREY + PAL, 0, f"{MPEG1} -b:v 1M -frames:v 10"),
    Stream("ntsc_mpeg1", "MPEG-1, 525 lines", GREY + NTSC, 0, f"{MPEG1} -b:v 1M -frames:v 6"),
    Stream("pal_mjpeg", "Motion JPEG, 625 lines", GREY + PAL, 0, "-c:v mjpeg -pix_fmt yuvj420p -q:v 31 -frames:v 5"),
    Stream("ntsc_mjpeg", "Motion JPEG, 525 lines", GREY + NTSC, 0, "-c:v mjpeg -pix_fmt yuvj422p -q:v 31 -frames:v 3"),
    Stream("pal_timecode", "MPEG-2, 625 lines, time code", GREY + PAL, 0, f"{MPEG2} -timecode 10:20:30:12 -frames:v 4"),
    Stream("ntsc_dropframe", "MPEG-2, 525 lines, drop-frame time code", GREY + NTSC, 0, f"{MPEG2} -timecode 01:00:59;28 -frames:v 4"),
    Stream("pal_120", "MPEG-2, 625 lines, 120 frames", GREY + PAL, 0, f"{MPEG2} -b:v 100k -g 150 -frames:v 120"),
    Stream("ntsc_195", "MPEG-1, 525 lines, 195 frames", GREY + NTSC, 0, f"{MPEG1} -b:v 50k -g 250 -frames:v 195"),
    Stream("ntsc_196", "MPEG-1, 525 lines, 196 frames", GREY + NTSC, 0, f"{MPEG1} -b:v 50k -g 250 -frames:v 196"),
    Stream("pal_dv25", "DV 25 Mb/s, 625 lines", GREY + PAL, 0, "-c:v dvvideo -pix_fmt yuv420p -frames:v 2"),
    Stream("ntsc_dv25", "DV 25 Mb/s, 525 lines", GREY + NTSC, 0, "-c:v dvvideo -pix_fmt yuv411p -frames:v 2"),
    Stream("pal_dv50", "DV 50 Mb/s, 625 lines", GREY + PAL, 0, "-c:v dvvideo -pix_fmt yuv422p -frames:v 1"),
    Stream("ntsc_dv50", "DV 50 Mb/s, 525 lines", GREY + NTSC, 0, "-c:v dvvideo -pix_fmt yuv422p -frames:v 1"),
    Stream("pal_dv25_wide", "DV 25 Mb/s, 625 lines, 16:9", GREY + PAL, 0, "-c:v dvvideo -pix_fmt yuv420p -aspect 16:9 -frames:v 1"),
    Stream("ntsc_dv50_wide", "DV 50 Mb/s, 525 lines, 16:9", GREY + NTSC, 0, "-c:v dvvideo -pix_fmt yuv422p -aspect 16:9 -frames:v 1"),
    Stream("pal_audio", "MPEG-2, 625 lines, one audio track, one second", GREY + PAL, 1, f"{MPEG2} -t 1"),
    Stream("ntsc_audio_4", "MPEG-2, 525 lines, four audio tracks", GREY + NTSC, 4, f"{MPEG2} -t 0.5"),
    Stream("audio_only", "one audio track and no picture, one second", "", 1, "-t 1"),
    Stream("pal_\u00e9t\u00e9", "MPEG-2, 625 lines, a file name that is not ASCII", GREY + PAL, 0, f"{MPEG2} -frames:v 2"),
    Stream("pal_long_name_" + 230 * "n", "MPEG-2, 625 lines, a file name of 248 bytes", GREY + PAL, 0, f"{MPEG2} -frames:v 2"),
]

# streams of which damaged copies are made, and the byte of a header that is changed in one: of the leader, the length and the trailer
DAMAGED = [("pal_mpeg2", 4), ("ntsc_mpeg1", 9), ("pal_mjpeg", 15)]


def asked(stream):
    """The words for ffmpeg; +bitexact and one thread, so that a stream is the same each time."""
    sources = [stream.picture] if stream.picture else []
    tracks = ["0"] if stream.picture else []
    sound = []
    if stream.tones:
        tracks += stream.tones * [str(len(sources))]
        sources.append("sine=frequency=1000:sample_rate=48000")
        sound = ["-c:a", "pcm_s16le", "-ac", "1", "-flags:a", "+bitexact"]
    inputs = [w for source in sources for w in ("-f", "lavfi", "-i", source)]
    maps = [w for track in tracks for w in ("-map", track)]
    return [*inputs, *maps, *stream.options.split(), *sound, "-flags:v", "+bitexact", "-fflags", "+bitexact", "-threads", "1"]


def make(stream, folder):
    """Makes a stream in the folder and gives its path."""
    path = os.path.join(folder, stream.name + ".gxf")
    subprocess.run(["ffmpeg", "-nostdin", "-v", "error", "-y", *asked(stream), path], check=True)
    return path
