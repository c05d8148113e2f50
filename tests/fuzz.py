"""The work of fuzz.sh, whose head says what it does."""
import collections, os, random, re, shutil, struct, subprocess, sys, tempfile

sys.dont_write_bytecode = True
import built

words = sys.argv[1:]
place, words = built.taken(words)
program = built.program(place, "pdb_symbolizer")
keep = None
if words and words[0] == "--keep":
    keep, words = words[1], words[2:]
count = int(words[0]) if words else 1000
seed = int(words[1]) if len(words) > 1 else 1
MAGIC = b"Microsoft C/C++ MSF 7.00\r\n\x1aDS\0\0\0"
FAULT = re.compile(rb"fault: [A-Za-z]+(\(.*\))?\n")
ROW = r"@(0x[0-9a-f]{8}\+(\d+|\?\?)|\?\?)"
# names are written as they are stored, also with a newline in them
ANSWER = re.compile(r"(?s)  (\?\?|unreadable|.* at .*:(\d+|\?\?) " + ROW + r")\n")
SIZES = re.compile(r"(?s)(0x[0-9a-f]{8} \d+ .*\n)?none (\d+)\n")
SPAN = (0x1000, 0x1200)
ADDRESSES = [*range(0x1000, 0x1200, 3), 0, 0xFFFFFFFF]
rnd = random.Random(seed)
folder = f"{built.ROOT}/crates/pdb_symbolizer/data"
names = [it for it in sorted(os.listdir(folder)) if it.endswith(".pdb")]
whole = [open(f"{folder}/{it}", "rb").read() for it in names]


def streams_of(data):
    """The places of each stream's bytes."""
    page, _, _, size, _, at = struct.unpack_from("<6I", data, 32)
    pages = lambda n: -(-n // page)
    listed = struct.unpack_from(f"<{pages(size)}I", data, at * page)
    directory = b"".join(data[it * page : it * page + page] for it in listed)[:size]
    (number,) = struct.unpack_from("<I", directory)
    at = 4 + 4 * number
    for length in struct.unpack_from(f"<{number}I", directory, 4):
        length = 0 if length == 0xFFFFFFFF else length
        numbers = struct.unpack_from(f"<{pages(length)}I", directory, at)
        at += 4 * pages(length)
        yield [it * page + i for it in numbers for i in range(page)][:length]


def value():
    return rnd.choice([0, 1, 0x7F, 0x80, 0xFF, rnd.randrange(256)])


def random_file():
    body = bytes(rnd.randrange(256) for _ in range(rnd.choice([0, 31, 32, 100, 5000])))
    if rnd.random() < 0.7:
        page = rnd.choice([0, 0x100, 0x200, 0x1000, 0x800000, rnd.randrange(1 << 32)])
        size = rnd.choice([0, 4, 64, 1 << 20, (1 << 32) - 1])
        numbers = [page, 1, rnd.randrange(9), size, 0, rnd.randrange(9)]
        body = MAGIC + struct.pack("<6I", *numbers) + body
    return body + bytes(rnd.choice([0, 4096, 20000]))


def cut_file():
    data = rnd.choice(whole)
    return data[: rnd.randrange(len(data))]


def overwritten_file():
    data = bytearray(rnd.choice(whole))
    for _ in range(rnd.choice([1, 3, 30, 300])):
        data[rnd.randrange(len(data))] = value()
    return bytes(data)


def stream_damaged():
    data = bytearray(rnd.choice(whole))
    places = rnd.choice([it for it in streams_of(bytes(data)) if it])
    for _ in range(rnd.choice([1, 2, 5])):
        at = rnd.randrange(len(places))
        for place in places[at : at + rnd.choice([1, 2, 4])]:
            data[place] = value()
    return bytes(data)


def run(words, given):
    try:
        ran = subprocess.run([program, *words], input=given, capture_output=True, timeout=20)
    except subprocess.TimeoutExpired:
        return None, b"", b""
    return ran.returncode, ran.stdout, ran.stderr


def frames_wrong(status, out, error):
    if status != 0:
        return refusal_wrong(status, out, error)
    parts = re.split(r"(?m)^(0x[0-9a-f]{8})\n", out.decode("utf-8", "replace"))
    if [int(it, 16) for it in parts[1::2]] != ADDRESSES or parts[0]:
        return "not one answer for each address"
    if not all(map(ANSWER.fullmatch, parts[2::2])):
        return "an answer of another form"
    return "a text on standard error" if error else None


def sizes_wrong(status, out, error):
    if status != 0:
        return refusal_wrong(status, out, error)
    found = SIZES.fullmatch(out.decode("utf-8", "replace"))
    if not found:
        return "a report of another form"
    counts = re.findall(r"(?m)^0x[0-9a-f]{8} (\d+) ", found[1] or "")
    if sum(map(int, counts)) + int(found[2]) != SPAN[1] - SPAN[0]:
        return "counts that don't add up"
    return "a text on standard error" if error else None


def refusal_wrong(status, out, error):
    if status is None:
        return "no end within 20 seconds"
    if status != 1:
        return f"status {status}"
    if out:
        return "a report and a fault"
    return None if FAULT.fullmatch(error) else f"no fault: {error[:200]!r}"


kinds = [random_file, cut_file, overwritten_file, stream_damaged, stream_damaged]
asked = "".join(f"{it:x}\n" for it in ADDRESSES).encode()


def files():
    """Each file, with what it is."""
    for data in whole:
        yield "whole_file", data
    for number in range(count):
        kind = kinds[number % len(kinds)]
        yield kind.__name__, kind()


def wrong_with(kind, frames, sizes):
    """What is wrong with the answers about a file of that kind."""
    wrong = frames_wrong(*frames) or sizes_wrong(*sizes)
    if not wrong and (frames[0], frames[2]) != (sizes[0], sizes[2]):
        wrong = "frames and sizes end otherwise"
    if not wrong and kind == "whole_file" and b" at " not in frames[1]:
        wrong = "no function is found"
    if not wrong and kind == "random_file" and frames[0] == 0:
        wrong = "random bytes are answered"
    return wrong


ended = collections.Counter()
bad = 0
with tempfile.TemporaryDirectory() as room:
    for number, (kind, data) in enumerate(files()):
        open(f"{room}/it.pdb", "wb").write(data)
        frames = run(["frames", f"{room}/it.pdb"], asked)
        sizes = run(["sizes", f"{room}/it.pdb", *(f"{it:x}" for it in SPAN)], b"")
        ended[kind, "answered" if frames[0] == 0 else "refused"] += 1
        wrong = wrong_with(kind, frames, sizes)
        if wrong:
            bad += 1
            print(f"file {number} of seed {seed} ({kind}): {wrong}")
            if keep:
                os.makedirs(keep, exist_ok=True)
                shutil.copy(f"{room}/it.pdb", f"{keep}/{seed}_{number}.pdb")
for (kind, how), times in sorted(ended.items()):
    print(f"{kind}: {times} {how}")
built.end(sum(ended.values()) - bad, bad)
