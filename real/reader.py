"""ffmpeg's own reader, asked through ffprobe."""
import json
import re
import subprocess
from typing import NamedTuple

EVERYTHING = ["-show_streams", "-show_format", "-show_packets", "-of", "json"]
# ffprobe says this of every time code track, as it has no decoder for it
OF_NO_INTEREST = re.compile(r"Unsupported codec with id 0 for input stream \d+")


class Read(NamedTuple):
    streams: list
    packets: list
    tags: dict
    size: int
    status: int
    says: list       # messages on standard error


def ffprobe(path, options):
    run = subprocess.run(["ffprobe", "-v", "warning", *options, path], stdin=subprocess.DEVNULL, stdout=subprocess.PIPE, stderr=subprocess.PIPE, text=True)
    lines = [re.sub(r" @ 0x[0-9a-f]+", "", line).replace(path, "the file") for line in run.stderr.splitlines()]
    return json.loads(run.stdout or "{}"), run.returncode, [line for line in dict.fromkeys(lines) if not OF_NO_INTEREST.fullmatch(line)]


def read(path):
    told, status, says = ffprobe(path, EVERYTHING)
    about = told.get("format", {})
    return Read(told.get("streams", []), told.get("packets", []), about.get("tags", {}), int(about.get("size", 0)), status, says)


def seek(path, seconds):
    """Where the first packet stands that ffprobe reads after a seek, or nothing."""
    told, _, _ = ffprobe(path, ["-read_intervals", f"{seconds:.6f}%+#1", "-show_packets", "-of", "json"])
    packets = told.get("packets", [])
    return int(packets[0]["pos"]) - 32 if packets else None
