"""Pictures to be coded, and the coders of ffmpeg and of the kernel that are measured beside the program, as far as they are
there. Nothing of this is proved."""
import os
import shutil
import subprocess

from timing import Row

SIZE = "352x288"
CODERS = {"mjpeg": ["-c:v", "mjpeg", "-q:v", "5"],
          "mpeg2video": ["-c:v", "mpeg2video", "-q:v", "5"],
          "libx264": ["-c:v", "libx264", "-preset", "ultrafast", "-qp", "28"]}
RAW = ["-f", "rawvideo", "-pix_fmt", "yuv420p", "-s", SIZE, "-r", "25"]
PLAIN = ["-pix_fmt", "yuv420p", "-f", "rawvideo", "-y"]
ONE = ["ffmpeg", "-v", "error", "-threads", "1"]
# A window over a picture of 1,408 samples a row, that goes to and fro by three samples across and two down a picture.
WINDOW = "scale=1408:-2,crop=352:288:abs(mod(3*n\\,2*(iw-ow))-(iw-ow)):abs(mod(2*n\\,2*(ih-oh))-(ih-oh))"
HERE = os.path.dirname(os.path.abspath(__file__))
KERNEL = os.path.join("drivers", "media", "test-drivers", "vicodec")
KERNEL_NAME = "codec-fwht.c of the kernel"


def written(command, path, given=None):
    """The path of a file with what a command writes; it has to end well."""
    with open(path, "wb") as file, open(given or os.devnull, "rb") as source:
        subprocess.run(command, stdin=source, stdout=file, check=True)
    return path


def has_ffmpeg():
    return shutil.which("ffmpeg") is not None


def installed():
    """The names of those coders that ffmpeg has here."""
    if not has_ffmpeg():
        return []
    listed = subprocess.run(["ffmpeg", "-v", "error", "-encoders"], capture_output=True, text=True, check=False).stdout
    return [name for name in CODERS if f" {name} " in listed]


def pictures(content, photo, number, path):
    """Raw pictures of one of ffmpeg's sources, or of a photo with a window that moves over it."""
    if content == "photo":
        source = ["-loop", "1", "-i", photo, "-vf", WINDOW]
    else:
        source = ["-f", "lavfi", "-i", f"{content}=size={SIZE}:rate=25"]
    subprocess.run(["ffmpeg", "-v", "error", *source, "-frames:v", str(number), *PLAIN, path], check=True)


def encoding(raw, count):
    """A row for each coder, that codes raw pictures in one thread."""
    return [Row(f"ffmpeg {name}, one thread", [*ONE, *RAW, "-i", raw, "-threads", "1", *CODERS[name], "-f", "null", "-"],
                None, count) for name in installed()]


def decoding(raw, count, path):
    """A row for each coder, that decodes in one thread what it coded before."""
    rows = []
    for name in installed():
        coded = f"{path}.{name}.nut"
        subprocess.run(["ffmpeg", "-v", "error", *RAW, "-i", raw, *CODERS[name], "-y", coded], check=True)
        rows.append(Row(f"ffmpeg {name}, one thread", [*ONE, "-i", coded, "-f", "rawvideo", "-y", os.devnull], None, count))
    return rows


def kernel_codec(sources, folder):
    """The path of codec-fwht.c as a command, built by gcc -O2 over the kernel's sources in a folder."""
    lacking = os.path.join(folder, "include", "linux")
    os.makedirs(lacking)
    for name in ("string.h", "bitops.h"):
        with open(os.path.join(lacking, name), "w", encoding="ascii"):
            pass
    path = os.path.join(folder, "fwht")
    places = ["-I", os.path.dirname(lacking), "-I", os.path.join(sources, KERNEL)]
    subprocess.run(["gcc", "-O2", *places, "-o", path, os.path.join(HERE, "fwht.c")], check=True)
    return path
