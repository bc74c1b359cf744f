"""`taf_hub replay --journal` that is killed, and given torn, damaged and foreign files, and files that cannot be written."""
import contextlib
import os
import pathlib
import random
import resource
import shutil
import signal
import subprocess
import tempfile
import time

from hub_server import PROGRAM, Wrong, journey, line_of, need

# No run takes as many seconds.
LIMIT = 60


class Ended:
    """What a command wrote, and its status."""

    def __init__(self, words, lines=b"", program=PROGRAM, **more):
        ran = subprocess.run([program, *words], input=lines, capture_output=True, timeout=LIMIT, **more)
        self.status, self.errors = ran.returncode, ran.stderr.decode()
        written = ran.stdout.splitlines(keepends=True)
        self.answers = [it for it in written if it.startswith(b"{")]
        self.report = [it for it in written if not it.startswith(b"{")]


def replay(journal, lines=b"", **more):
    return Ended(["replay", "--journal", journal], lines, **more)


def check(journal, calls, torn, **more):
    """The command `check` finds so many calls, and so many bytes of a torn end."""
    ended = Ended(["check", journal], **more)
    need(ended.status == 0, f"check ends with status {ended.status}: {ended.errors}")
    need(ended.report == [b"calls %d\n" % calls, b"torn bytes %d\n" % torn], f"check finds {ended.report}, not {calls} and {torn}")


# The lines of a journal


def sum_after(sum_before, text):
    """FNV-1a of 64 bits."""
    for byte in text:
        sum_before = (sum_before ^ byte) * 0x100000001B3 % 2**64
    return sum_before


def records_of(journal):
    """The texts of the calls of a journal without a torn end, once each line's sum is compared."""
    lines = [it for it in journal.split(b"\n") if it]
    records, last = [], sum_after(0xCBF29CE484222325, b"taf_hub journal 1")
    for line in lines:
        head, text = line[:27], b"{" + line[27:]
        last = sum_after(last, text)
        need(head == b'{"_sum":"%016x",' % last, f"a line of the journal has another sum: {line}")
        records.append(text)
    return records


def without_repeats(records):
    """Each record where it came first."""
    return list(dict.fromkeys(records))


def messages(count):
    """Lines of journeys. A message that is sent again gets the reply of the first, and no question is among them."""
    records = [it for number in range(-(-count // 7)) for it in journey("R100", 10, number) if it["kind"] != "ask"]
    return [line_of(it) for it in records[:count]]


# Kills


class Killed:
    """A run that is killed: it is sent some lines in pieces, each after the answers to the one before, and killed soon after the
    last piece; or it is killed while it begins."""

    def __init__(self, draw, journal, lines):
        words = [PROGRAM, "replay", "--journal", journal]
        self.process = subprocess.Popen(words, stdin=subprocess.PIPE, stdout=subprocess.PIPE, stderr=subprocess.PIPE)
        self.answers = []
        if draw.random() < 0.9:
            self.send(draw, journal, lines)
        # A batch and its sync take some milliseconds, and the start of a run too.
        time.sleep(0.001 * 4 ** draw.uniform(-1, 2))
        self.process.kill()
        self.answers += [it for it in self.process.stdout if it.endswith(b"\n")]
        status = self.process.wait(timeout=LIMIT)
        need(status == -signal.SIGKILL, f"status {status} before it was killed: {self.process.stderr.read()}")
        with contextlib.suppress(BrokenPipeError):
            self.process.stdin.close()

    def send(self, draw, journal, lines):
        said = self.process.stderr.readline().decode()
        need(said.startswith(f"{journal}: "), f"it says {said}")
        sent = 0
        for _ in range(draw.randint(1, 4)):
            for _ in range(sent - len(self.answers)):
                self.answers.append(self.process.stdout.readline())
            piece = lines[sent : sent + draw.choice([1, 2, 8, 40, 200])]
            self.process.stdin.write(b"".join(piece))
            self.process.stdin.flush()
            sent += len(piece)


def kills(folder, draw, count):
    """Kills so many runs, one after another on one journal, and compares what comes of them with a run that is not killed."""
    journal, whole = f"{folder}/killed", f"{folder}/whole"
    lines = messages(400 * count)
    answers = []
    for _ in range(count):
        answers += Killed(draw, journal, lines[len(answers) :]).answers
    # A run that is not killed takes half as many lines more.
    lines = lines[: len(answers) * 3 // 2 + 100]
    last = replay(journal, b"".join(lines[len(answers) :]))
    need(last.status == 0, f"status {last.status}: {last.errors}")
    answers += last.answers
    one = replay(whole, b"".join(lines))
    plain = Ended(["replay"], b"".join(lines))
    need(answers == one.answers == plain.answers, "a line got another reply")
    need(last.report == one.report == plain.report, "another report")
    records, wanted = records_of(pathlib.Path(journal).read_bytes()), records_of(pathlib.Path(whole).read_bytes())
    need(len(wanted) == len(lines), f"{len(wanted)} lines in the journal for {len(lines)} calls")
    need(without_repeats(records) == without_repeats(wanted), "another journal")
    check(journal, len(records), 0)
    print(f"journal: {count} runs killed: {len(lines)} lines, each with its reply, {len(records) - len(lines)} done before they were sent again", flush=True)


# Files that a crash leaves, and others


def batches(folder):
    """A journal of three batches of one, two and two calls: its bytes up to the end of each."""
    journal, ends = f"{folder}/batches", []
    pathlib.Path(journal).unlink(missing_ok=True)
    fetch = line_of({"kind": "fetch", "from": "R103", "limit": 10})
    for piece in (fetch, b"".join(messages(2)), 2 * fetch):
        replay(journal, piece)
        ends.append(os.path.getsize(journal))
    found = pathlib.Path(journal).read_bytes()
    return [found[:end] for end in ends]


def with_hole(draw, torn):
    """Some bytes read as zero."""
    start = draw.randrange(len(torn))
    end = draw.randint(start + 1, len(torn))
    return torn[:start] + bytes(end - start) + torn[end:]


def torn_end(journal, whole, torn):
    """A torn end is cut off and kept, and nothing else."""
    pathlib.Path(journal).write_bytes(whole + torn)
    calls = len(records_of(whole))
    check(journal, calls, len(torn))
    ended, copy = replay(journal), pathlib.Path(f"{journal}.cut-1")
    said = f"; a torn end of {len(torn)} bytes was cut off, and is kept in {copy}" if torn else ""
    need(ended.status == 0 and ended.errors == f"{journal}: {calls} calls{said}\n", f"status {ended.status}: {ended.errors}")
    need(pathlib.Path(journal).read_bytes() == whole, "another journal")
    if torn:
        need(copy.read_bytes() == torn, "another copy")
        copy.unlink()


def torn_ends(folder, draw):
    """The first batch and the last are cut at each byte, as they were and with a hole."""
    one, two, three = batches(folder)
    count = 0
    for whole, last in ((b"", one), (two, three[len(two) :])):
        for end in range(len(last)):
            torn_end(f"{folder}/torn", whole, last[:end])
            torn_end(f"{folder}/torn", whole, with_hole(draw, last[: end + 1]))
            count += 2
    print(f"journal: {count} torn ends cut off and kept", flush=True)


def refused(journal, bytes, said):
    """A file of these bytes is refused, and stays as it is."""
    pathlib.Path(journal).write_bytes(bytes)
    for ended in (replay(journal, b"{}\n"), Ended(["check", journal])):
        need(ended.status == 8 and not ended.answers + ended.report, f"status {ended.status}: {ended.errors}")
        need(ended.errors.startswith(f"{journal}: ") and said in ended.errors, f"it says {ended.errors}")
    need(pathlib.Path(journal).read_bytes() == bytes, "a file that is refused was changed")


def damage(folder, draw):
    """Damage before the last batch: a byte that is zero or another one, a line that is lost, and lines in another order."""
    one, two, three = batches(folder)
    journal, count = f"{folder}/damaged", 0
    for at in range(1, len(two), 3):
        refused(journal, three[:at] + b"\0" + three[at + 1 :], f"damaged behind byte {len(one) if at >= len(one) else 0}\n")
        other = draw.choice([it for it in range(1, 256) if it != three[at]])
        refused(journal, three[:at] + bytes([other]) + three[at + 1 :], "")
        count += 2
    lines = three.splitlines(keepends=True)
    refused(journal, b"".join(lines[2:]), "line 1 of the journal, blank ones not counted, has a wrong sum\n")
    refused(journal, b"".join(lines[:3] + lines[4:]), "line 3 of the journal, blank ones not counted, has a wrong sum\n")
    refused(journal, b"".join(lines[:2] + lines[3:1:-1] + lines[4:]), "line 2 of the journal, blank ones not counted, has a wrong sum\n")
    print(f"journal: {count + 3} damages refused, and the files left as they were", flush=True)


def others(folder, draw):
    """Files of other programs."""
    program = pathlib.Path(PROGRAM).read_bytes()[:65536]
    for bytes in (b"notes\n", b"\n", b"a\n\nb\n\n", b"{}\n\n", b"".join(messages(9)), draw.randbytes(4096), program):
        refused(f"{folder}/other", bytes, "the file is no journal of this program\n")
    print("journal: files of other programs refused, and left as they were", flush=True)


# Files that are in use, and that cannot be written


def second(folder):
    """A second process is refused while the first has the journal, and disturbs it in nothing."""
    journal, lines = f"{folder}/second", messages(2)
    words = [PROGRAM, "replay", "--journal", journal]
    first = subprocess.Popen(words, stdin=subprocess.PIPE, stdout=subprocess.PIPE, stderr=subprocess.PIPE)
    first.stderr.readline()
    for calls, line in enumerate(lines):
        ended = replay(journal, line)
        need(ended.status == 8 and ended.errors == f"{journal}: another process has the file\nfault: journal busy\n", f"status {ended.status}: {ended.errors}")
        check(journal, calls, 0)
        first.stdin.write(line)
        first.stdin.flush()
        need(b'"accepted"' in first.stdout.readline(), "the first process does not answer")
    first.communicate(timeout=LIMIT)
    need(first.returncode == 0, f"status {first.returncode} of the first process")
    check(journal, len(lines), 0)
    print("journal: a second process refused", flush=True)


def read_only(folder):
    """A file that may only be read: `replay` refuses it, and `check` reads it."""
    journal = f"{folder}/read_only"
    replay(journal, b"".join(messages(2)))
    os.chmod(journal, 0o444)
    more = {}
    if os.geteuid() == 0:
        # Who is root may write each file.
        program = shutil.copy(PROGRAM, f"{folder}/taf_hub")
        os.chmod(folder, 0o755)
        more = {"program": program, "user": 65534}
    try:
        ended = replay(journal, b"{}\n", **more)
    except PermissionError:
        print("journal: a file that may only be read is left out, since no other user may run the program")
        return
    need(ended.status == 7 and ended.errors == f"{journal}: the file could not be opened\nfault: journal file\n", f"status {ended.status}: {ended.errors}")
    check(journal, 2, 0, **more)
    print("journal: a file that may only be read refused", flush=True)


def failed_write(journal, ended, lines, plain):
    """After a write that failed no answer is given, and the journal has the call of each line that was answered."""
    said = f"{journal}: a call of the journal's file failed\nfault: journal file\n"
    need(ended.status == 7 and ended.errors.endswith(said) and not ended.report, f"status {ended.status}: {ended.errors}")
    told = ended.answers
    need(told == plain.answers[: len(told)] and len(told) < len(lines), f"{len(told)} answers")
    last = replay(journal, b"".join(lines[len(told) :]))
    need(last.status == 0 and told + last.answers == plain.answers, f"status {last.status}: {last.errors}")
    need(last.report == plain.report, "another report")


def too_large(folder):
    """The file may not grow beyond so many bytes, so a part of a batch is written."""
    lines, count = messages(3000), 0
    plain = Ended(["replay"], b"".join(lines))
    for size in (1, 1000, 65536, 100_000, 250_001):
        journal = f"{folder}/too_large_{size}"
        limit = lambda: resource.setrlimit(resource.RLIMIT_FSIZE, (size, size))
        ended = replay(journal, b"".join(lines), preexec_fn=limit, restore_signals=False)
        need(os.path.getsize(journal) <= size, "the file is larger than it may be")
        failed_write(journal, ended, lines, plain)
        count += 1
    print(f"journal: {count} files that may not grow, each told", flush=True)


FULL = """
mount -t tmpfs -o size=64k none "$1" || exit 99
"$2" replay --journal "$1/full"; status=$?
cp "$1/full" "$3"
exit $status
"""


def full(folder):
    """A full disk, by a small one in memory, where the system gives such a one without the rights of root."""
    os.mkdir(f"{folder}/disk")
    lines = messages(3000)
    words = ["--user", "--map-root-user", "--mount", "sh", "-c", FULL, "sh", f"{folder}/disk", str(PROGRAM), f"{folder}/full"]
    ended = Ended(words, b"".join(lines), program="unshare")
    if ended.status in (1, 99, 127):
        print("journal: a full disk is left out, since no small one can be had")
        return
    ended.errors = ended.errors.replace(f"{folder}/disk/", f"{folder}/")
    failed_write(f"{folder}/full", ended, lines, Ended(["replay"], b"".join(lines)))
    print("journal: a full disk told", flush=True)


def journal():
    seed, count = int(os.environ.get("SEED", time.time())), int(os.environ.get("KILLS", 300))
    draw = random.Random(seed)
    try:
        with tempfile.TemporaryDirectory() as folder:
            kills(folder, draw, count)
            torn_ends(folder, draw)
            damage(folder, draw)
            others(folder, draw)
            second(folder)
            read_only(folder)
            too_large(folder)
            full(folder)
    except (Wrong, OSError) as it:
        raise Wrong(f"journal: seed {seed}: {it!r}") from it
