#!/usr/bin/env python3
"""Has clients of llvm-symbolizer ask pdb_llvm_symbolizer in its place:

    tests/llvm_clients.py [--built FILE | --unproved]

FILE is where the program lies, with NAME in it for its name; if left out, the proved one is run,
with --unproved one that `rt try` compiles, which answers a sanitizer's request and no client.
The clients are asan_symbolize, over a report of a sanitizer, and pprof, over a profile, both of
x64.exe. Each has to print what it prints with llvm-symbolizer-19. A client that isn't installed is
passed over, and all are where llvm-symbolizer-19 isn't. On Debian 12, clang-19 and llvm-19 have
asan_symbolize-19 and llvm-symbolizer-19; with golang-go and golang-github-google-pprof-dev

    GO111MODULE=off GOPATH=/usr/share/gocode go build github.com/google/pprof

makes pprof, as `go install github.com/google/pprof@latest` does elsewhere. Whatever is installed,
the program has to answer a sanitizer's request. All that is one test; the last line is `N passed,
M failed`.
"""
import gzip
import os
import shutil
import subprocess
import sys
import tempfile

sys.dont_write_bytecode = True
sys.path.insert(0, os.path.dirname(os.path.realpath(__file__)))
import built

DATA = f"{built.ROOT}/crates/pdb_llvm_symbolizer/data"
BASE = 0x140000000
# In functions, in inlined calls, in a C function without lines, in padding, and after the code.
PLACES = [0x1000, 0x1018, 0x1055, 0x10A0, 0x1110, 0x1148, 0x1168, 0x1190, 0x11C4, 0x11E0]
SECONDS = 60


def report(image):
    """A report of a sanitizer: a frame for each place."""
    frame = "    #{} 0x7ff7{:08x}  ({}+{:#x})\n"
    return "".join(frame.format(at, it, image, BASE + it) for at, it in enumerate(PLACES))


def asan_symbolize(client, symbolizer, room):
    """What asan_symbolize makes of the report."""
    words = {"env": {**os.environ, "ASAN_SYMBOLIZER_PATH": symbolizer}, "timeout": SECONDS}
    given = report(f"{room}/x64.exe").encode()
    return subprocess.run([client, "-d"], input=given, capture_output=True, **words).stdout


def varint(number):
    """A number of a protocol buffer."""
    made = b""
    while number > 0x7F:
        made += bytes([number & 0x7F | 0x80])
        number >>= 7
    return made + bytes([number])


def field(number, value):
    """A field of a protocol buffer: a number, or bytes."""
    if isinstance(value, int):
        return varint(number << 3) + varint(value)
    return varint(number << 3 | 2) + varint(len(value)) + value


def profile(image):
    """A profile with a sample for each place, of one mapping."""
    texts = [b"", b"samples", b"count", image.encode()]
    made = field(1, field(1, 1) + field(2, 2))
    made += b"".join(field(2, field(1, at) + field(2, 1)) for at in range(1, len(PLACES) + 1))
    made += field(3, field(1, 1) + field(2, BASE) + field(3, BASE + 0x10000) + field(5, 3))
    for at, place in enumerate(PLACES, 1):
        made += field(4, field(1, at) + field(2, 1) + field(3, BASE + place))
    return gzip.compress(made + b"".join(field(6, it) for it in texts))


def pprof(client, symbolizer, room):
    """What pprof prints of the profile."""
    with open(f"{room}/profile.pb.gz", "wb") as file:
        file.write(profile(f"{room}/x64.exe"))
    words = [client, "-symbolize=local", "-lines", "-traces", f"{room}/profile.pb.gz"]
    env = {**os.environ, "PPROF_TOOLS": os.path.dirname(symbolizer), "HOME": room}
    return subprocess.run(words, capture_output=True, env=env, timeout=SECONDS).stdout


def answers(symbolizer, room):
    """Whether the program answers as a sanitizer asks it."""
    words = [symbolizer, "--demangle", "--inlines", "--default-arch=x86_64"]
    given = f'CODE "x64.exe" {BASE + 0x1168:#x}\n'.encode()
    ran = subprocess.run(words, input=given, capture_output=True, cwd=room, timeout=SECONDS)
    return ran.stdout.startswith(b"archive::verify(struct archive::Entry const &)\n")


CLIENTS = {asan_symbolize: ["asan_symbolize-19", "asan_symbolize"], pprof: ["pprof"]}
CLIENTS = {} if "--unproved" in sys.argv else CLIENTS

place, _ = built.taken(sys.argv[1:])
program = built.program(place, "pdb_llvm_symbolizer")
original = shutil.which("llvm-symbolizer-19")
with tempfile.TemporaryDirectory() as room:
    for name in os.listdir(DATA):
        shutil.copy(f"{DATA}/{name}", room)
    symbolizers = []
    for folder, file in (("theirs", original), ("ours", program)):
        os.mkdir(f"{room}/{folder}")
        if file:
            os.symlink(file, f"{room}/{folder}/llvm-symbolizer")
        symbolizers.append(f"{room}/{folder}/llvm-symbolizer")
    is_right = answers(symbolizers[1], room)
    for ask, names in CLIENTS.items():
        client = next(filter(None, map(shutil.which, names)), None)
        if not original or not client:
            print(f"{ask.__name__}: passed over, since it or llvm-symbolizer-19 isn't installed")
            continue
        theirs, ours = (ask(client, it, room).decode() for it in symbolizers)
        if theirs != ours or "bytes::Checksum::add" not in ours:
            is_right = False
            print(f"{ask.__name__} with llvm-symbolizer:\n{theirs}\nwith this program:\n{ours}")
built.end(int(is_right), int(not is_right))
