"""The work of llvm_symbolizer.sh, whose head says what it does."""
import os, re, resource, shutil, struct, subprocess, sys, tempfile

sys.dont_write_bytecode = True
import built, llvm_cases

words = sys.argv[1:]
SECONDS = 60
MEMORY = 64 << 20
LONG = 256 << 20
# Requests and their answers: the first one has to be answered before the next one comes.
FRAMES = b"""bytes::rotate
C:\\src\\checksum.h:6:0
bytes::Checksum::add
C:\\src\\checksum.h:13:0
archive::verify(struct archive::Entry const &)
C:\\src\\archive.cpp:9:0

"""
ASKED = {b"x64.exe 0x1148\n": FRAMES, b"x64.exe 0x11c4\n": b"plain\n??:0:0\n\n"}
# What is no regular file, and what is reported of it.
NO_FILES = {
    "missing": "No such file or directory",
    "folder": "Is a directory",
    "fifo": "Not a regular file",
    "/dev/stdin": "Not a regular file",
    "/dev/null": "Not a regular file",
    "/dev/zero": "Not a regular file",
}
# The identities of x64.pdb and x64.exe, and where stores have the database.
DATABASE, IMAGE = "167A444B34A4F3304C4C44205044422E1", "797A49014000"
STORES = {
    "one": f"x64.pdb/{DATABASE}/x64.pdb",
    "two": f"x6/x64.pdb/{DATABASE}/x64.pdb",
    "other": f"X64.PDB/{DATABASE.lower()}/X64.Pdb",
}
NO_REQUEST = b"??\n??:0:0\n\n"
TOO_LONG = rb".*: error: 'a{1,4352}': the line has more than 4351 bytes\n"


def started(which, *words, **how):
    """A run of a program in the folder of images, of no more than so many seconds."""
    command = ["timeout", str(SECONDS), which, *words]
    pipes = dict.fromkeys(("stdin", "stdout", "stderr"), subprocess.PIPE)
    return subprocess.Popen(command, cwd=llvm_cases.DATA, **pipes, **how)


def run(which, name):
    """What a program writes on a case, and its status."""
    ran = started(which, *llvm_cases.arguments(name))
    output, errors = ran.communicate(llvm_cases.content(name, "input"))
    return llvm_cases.told(ran.returncode, output, errors)


def store(name, kind, text):
    """Stores a case's file, or removes it if it would be empty."""
    path = f"{llvm_cases.CASES}/{name}.{kind}"
    with open(path, "wb") as file:
        file.write(text)
    if not text:
        os.remove(path)


def answers_in_turn():
    """Whether an answer comes before the input ends, and the one to the next line after that."""
    ran = started(program, "--relative-address")
    for request, answer in ASKED.items():
        try:
            ran.stdin.write(request)
            ran.stdin.flush()
        except BrokenPipeError:
            return False
        if ran.stdout.read(len(answer)) != answer:
            return False
    return ran.communicate() == (b"", b"") and ran.returncode == 0


def bounds_lines():
    """Whether a line of 256 MB is one that is no request, within 64 MB of memory."""
    limit = lambda: resource.setrlimit(resource.RLIMIT_AS, (MEMORY, MEMORY))
    ran = started(program, preexec_fn=limit)
    output, errors = ran.communicate(b"a" * LONG)
    is_told = output == NO_REQUEST and re.fullmatch(TOO_LONG, errors)
    return is_told and ran.returncode == 0


def ends_where_input_is_closed():
    """Whether closed standard input is the end of input, and no file is read in its place."""
    file = "--obj=x64.pdb"
    asked = {("--obj=x64.exe",): b"", (file,): b"", (file, "0x1148"): FRAMES}
    for words, answer in asked.items():
        command = ["timeout", "20", program, *words]
        how = {"cwd": llvm_cases.DATA, "preexec_fn": lambda: os.close(0)}
        ran = subprocess.run(command, capture_output=True, **how)
        if (ran.returncode, ran.stdout, ran.stderr) != (0, answer, b""):
            return False
    return True


def image_of(database):
    """The bytes of x64.exe with another path in place of its database's."""
    with open(f"{llvm_cases.DATA}/x64.exe", "rb") as file:
        image = bytearray(file.read())
    record = image.index(b"RSDS")
    path = database.encode() + b"\0"
    entry = image.index(struct.pack("<I", record)) - 24
    assert struct.unpack_from("<I", image, entry + 12) == (2,)
    struct.pack_into("<I", image, entry + 16, 24 + len(path))
    image[record + 24 : record + 24 + len(path)] = path
    return bytes(image)


def copied_data(room):
    """Copies the image and its database into a folder."""
    for name in ("x64.exe", "x64.pdb"):
        shutil.copy(f"{llvm_cases.DATA}/{name}", room)


def refuses(room, words, reported):
    """Whether a request by arguments alone is answered by a report of why, and at once."""
    ran = subprocess.run(
        ["timeout", "20", program, *words, "0x1148"], cwd=room, input=b"", capture_output=True
    )
    errors = f"{program}: error: {reported}\n".encode()
    return (ran.returncode, ran.stdout, ran.stderr) == (1, b"", errors)


def opens_regular_files():
    """Whether a folder, a FIFO, a pipe and devices are answered as a missing file, at once, as what
    is asked for and as its database. No request is taken for one: the last line is answered."""
    with tempfile.TemporaryDirectory() as room:
        copied_data(room)
        os.mkfifo(f"{room}/fifo")
        os.mkdir(f"{room}/folder")
        requests = reported = ""
        for place, why in NO_FILES.items():
            if not refuses(room, [f"--obj={place}"], f"'{place}': {why}"):
                return False
            told = f"'x64.exe': '{place}': {why}"
            if not refuses(room, ["--obj=x64.exe", f"--pdb={place}"], told):
                return False
            image = f"{os.path.basename(place)}.exe"
            with open(f"{room}/{image}", "wb") as file:
                file.write(image_of(place))
            requests += f"{place} 0x1148\n{image} 0x1148\n"
            reported += f"{program}: error: '{place}': {why}\n"
            reported += f"{program}: error: '{image}': '{place}': {why}\n"
        ran = subprocess.run(
            ["timeout", "20", program, "--relative-address"],
            cwd=room, input=f"{requests}x64.exe 0x1148\n".encode(), capture_output=True,
        )
        answers = NO_REQUEST * 2 * len(NO_FILES) + FRAMES
        return ran.returncode == 0 and (ran.stdout, ran.stderr) == (answers, reported.encode())


def reads_as_far_as_headers():
    """Whether images and databases are read as far as their headers say: files of 100 GB are
    answered, and one that is no image refused, within 64 MB of memory."""
    limit = lambda: resource.setrlimit(resource.RLIMIT_AS, (MEMORY, MEMORY))
    with tempfile.TemporaryDirectory() as room:
        copied_data(room)
        with open(f"{room}/no.exe", "wb") as file:
            file.write(b"MZ")
        for name in ("x64.exe", "x64.pdb", "no.exe"):
            os.truncate(f"{room}/{name}", 100 << 30)
        requests = b"no.exe 0x1148\nx64.exe 0x1148\nx64.pdb 0x1148\n"
        ran = subprocess.run(
            ["timeout", "60", program, "--relative-address"],
            cwd=room, input=requests, capture_output=True, preexec_fn=limit,
        )
    errors = f"{program}: error: 'no.exe': the file has no PE signature\n".encode()
    is_told = (ran.returncode, ran.stderr) == (0, errors)
    return is_told and ran.stdout == NO_REQUEST + FRAMES + FRAMES


def write_apart(image, path, gap):
    """Writes an image with so many zeros before the section that holds its debug directory."""
    (headers,) = struct.unpack_from("<I", image, 60)
    (size,) = struct.unpack_from("<H", image, headers + 20)
    image = bytearray(image)
    debug, length = struct.unpack_from("<2I", image, headers + 24 + 160)
    header = headers + 24 + size + 40
    address, _, place = struct.unpack_from("<3I", image, header + 12)
    assert image[header : header + 6] == b".rdata" and address <= debug
    moved = [header + 20]
    first = place + debug - address
    moved += [entry + 24 for entry in range(first, first + length, 28)]
    for pointer in moved:
        (before,) = struct.unpack_from("<I", image, pointer)
        struct.pack_into("<I", image, pointer, before + gap)
    with open(path, "wb") as file:
        file.write(image[:place])
        file.seek(place + gap)
        file.write(image[place:])


def reads_images_by_places():
    """Whether an image with 2 GB of zeros among its sections is answered within 64 MB of memory."""
    limit = lambda: resource.setrlimit(resource.RLIMIT_AS, (MEMORY, MEMORY))
    with tempfile.TemporaryDirectory() as room:
        copied_data(room)
        with open(f"{llvm_cases.DATA}/x64.exe", "rb") as file:
            write_apart(file.read(), f"{room}/x64.exe", 2 << 30)
        return answers(room, {}, "--obj=x64.exe", preexec_fn=limit)


def finds_in_stores():
    """Whether a database is found in symbol stores, and beside its image, whatever the case of names:
    in stores of one level and of two, by arguments and by the environment, for an image, and by a
    line that names it or the image by its identity; also where other folders of the same name, but
    for the case of letters, don't have it."""
    with tempfile.TemporaryDirectory() as room:
        shutil.copy(f"{llvm_cases.DATA}/x64.exe", room)
        for store, path in STORES.items():
            os.makedirs(os.path.dirname(f"{room}/{store}/{path}"))
            shutil.copy(f"{llvm_cases.DATA}/x64.pdb", f"{room}/{store}/{path}")
        for folder in ("one/X64.PDB", f"one/x64.PDB/{DATABASE}", "two/X6", "other/x64.pdb"):
            os.makedirs(f"{room}/{folder}")
        image = f"{room}/one/x64.exe/{IMAGE}"
        os.makedirs(image)
        shutil.copy(f"{llvm_cases.DATA}/x64.exe", image)
        os.mkdir(f"{room}/beside")
        shutil.copy(f"{llvm_cases.DATA}/x64.exe", f"{room}/beside")
        shutil.copy(f"{llvm_cases.DATA}/x64.pdb", f"{room}/beside/X64.Pdb")
        asked = [({}, "--obj=beside/x64.exe"), ({}, "--symbol-store=one", f"--obj=x64.exe:{IMAGE}")]
        for store in STORES:
            named = f"--symbol-store={store}"
            asked.append(({}, "--symbol-store=none", named, "--obj=x64.exe"))
            asked.append(({}, named, f"--obj=X64.PDB:{DATABASE}"))
            path = f"none;srv*{store}*https://localhost/symbols"
            asked.append(({"_NT_SYMBOL_PATH": path}, "--obj=x64.exe"))
        return all(answers(room, more, *words) for more, *words in asked)


def passes_over_other_builds():
    """Whether a database beside its image that is of another build, or none, leaves the right one to
    be found in a store, and one that lies in a store under the identity of another is refused."""
    with tempfile.TemporaryDirectory() as room:
        shutil.copy(f"{llvm_cases.DATA}/x64.exe", room)
        stored, beside = f"{room}/one/{STORES['one']}", f"{room}/x64.pdb"
        os.makedirs(os.path.dirname(stored))
        shutil.copy(f"{llvm_cases.DATA}/x64.pdb", stored)
        asked = {}, "--symbol-store=one", "--obj=x64.exe"
        shutil.copy(f"{llvm_cases.DATA}/i386.pdb", beside)
        is_found = answers(room, *asked)
        with open(beside, "wb") as file:
            file.write(b"none")
        is_found = is_found and answers(room, *asked)
        os.remove(beside)
        shutil.copy(f"{llvm_cases.DATA}/i386.pdb", stored)
        name = f"x64.pdb:{DATABASE}"
        words = ["--symbol-store=one", f"--obj={name}"]
        return is_found and refuses(room, words, f"'{name}': the PDB is of another build")


def answers(room, environment, *words, **how):
    """Whether the program answers one address with these arguments."""
    ran = subprocess.run(
        ["timeout", str(SECONDS), program, *words, "--relative-address", "0x1148"],
        cwd=room, env={**os.environ, **environment}, input=b"", capture_output=True, **how,
    )
    return (ran.returncode, ran.stdout, ran.stderr) == (0, FRAMES, b"")


is_unproved = "--unproved" in words
place, words = built.taken(words)
is_writing = words[:1] == ["--write"]
names = llvm_cases.names()
if is_writing:
    for name in names:
        store(name, "expected", run(words[1], name))
elif words:
    names = words
program = built.program(place, "pdb_llvm_symbolizer")
failed = 0
for name in names:
    differs = llvm_cases.differences(name, run(program, name))
    if is_writing:
        store(name, "differs", differs)
    if differs != llvm_cases.content(name, "differs"):
        failed += 1
        print(f"{name}: otherwise than llvm-symbolizer, and not as {name}.differs says:")
        print(differs.decode(errors="replace"))
TESTS = (answers_in_turn, bounds_lines, opens_regular_files, reads_as_far_as_headers)
TESTS += (reads_images_by_places, finds_in_stores, passes_over_other_builds)
TESTS += (ends_where_input_is_closed,)
TESTS = () if is_unproved else TESTS
for test in TESTS:
    if not test():
        failed += 1
        print(f"{test.__name__}: failed")
built.end(len(names) + len(TESTS) - failed, failed)
