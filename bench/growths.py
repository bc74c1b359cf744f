"""Runs of the program in which one request for memory is refused, each in turn."""
import os
import shutil
import socket
import subprocess
import tempfile

from hub_server import PROGRAM, TOP, free_port, hello, journey, line_of, need


def replay_refused(preload, story, number):
    """What `replay` prints of a story where one growth is refused, and its status."""
    env = os.environ | {"LD_PRELOAD": preload, "REFUSE": str(number)}
    with open(story, "rb") as lines:
        ran = subprocess.run([PROGRAM, "replay"], stdin=lines, capture_output=True, env=env, timeout=20)
    return ran.stdout, ran.returncode


def refuse_in_replay(preload, story):
    """Refuses each growth alone, until a hundred runs in a row are whole. How many runs said that memory was refused."""
    whole, _ = replay_refused(preload, story, 0)
    number = refusals = since = 0
    while since < 100:
        number += 1
        output, status = replay_refused(preload, story, number)
        need((status == 4 and whole.startswith(output)) or (status == 0 and output == whole), f"{story.name}: growth {number}: status {status}")
        refusals += status == 4
        since = 0 if status == 4 else since + 1
    return refusals


def replay_kept(journal, lines, more):
    ran = subprocess.run([PROGRAM, "replay", "--journal", journal], input=b"".join(lines), capture_output=True, env=os.environ | more, timeout=20)
    return ran.stdout.splitlines(keepends=True), ran.returncode


def refuse_in_journal(preload, story, folder):
    """Refuses each growth alone of a run that goes on with the journal of the first lines, until a hundred runs in a row are whole.
    What was answered is in the journal: a run that is given the lines without an answer gives the other answers, and the report. How
    many runs said that memory was refused."""
    lines = story.read_bytes().splitlines(keepends=True)
    half, base = len(lines) // 2, f"{folder}/base"
    replay_kept(base, lines[:half], {})
    whole, _ = replay_kept(shutil.copy(base, f"{folder}/whole"), lines[half:], {})
    number = refusals = since = 0
    while since < 100:
        number += 1
        journal = shutil.copy(base, f"{folder}/refused")
        output, status = replay_kept(journal, lines[half:], {"LD_PRELOAD": preload, "REFUSE": str(number)})
        need(status in (0, 4, 7), f"a journal: growth {number}: status {status}")
        if status:
            output = [it for it in output if it.startswith(b"{")]
            rest, _ = replay_kept(journal, lines[half + len(output) :], {})
            output += rest
        need(output == whole, f"a journal: growth {number}: status {status}: other answers")
        refusals += status != 0
        since = 0 if status else since + 1
    return refusals


def serve_refused(preload, lines, number):
    """The status of a shift of one railway where one growth is refused, what it prints, and how many lines are said to the railway."""
    port = free_port()
    env = os.environ | {"LD_PRELOAD": preload, "REFUSE": str(number)}
    words = [PROGRAM, "serve", "--port", str(port), "--sessions", "1"]
    server = subprocess.Popen(words, stdout=subprocess.PIPE, stderr=subprocess.PIPE, env=env)
    said = 0
    if server.stderr.readline().startswith(b"listening on "):
        try:
            with socket.create_connection(("127.0.0.1", port), timeout=20) as connection:
                connection.sendall(lines)
                connection.shutdown(socket.SHUT_WR)
                with connection.makefile("rb") as answers:
                    said = sum(1 for _ in answers)
        except OSError:
            pass
    output, _ = server.communicate(timeout=20)
    return server.returncode, output, said


def refuse_in_serve(preload):
    """Refuses each growth of a shift alone, until a hundred runs in a row are whole. How many runs were not."""
    records = [hello("R000"), *journey("R000", 0, 0)]
    lines = b"".join(map(line_of, records))
    number = others = since = 0
    while since < 100:
        number += 1
        status, output, said = serve_refused(preload, lines, number)
        need(status in (0, 4, 5), f"serve: growth {number}: status {status}")
        need(status != 0 or output.startswith(b"settled "), f"serve: growth {number}: nothing is settled")
        is_whole = status == 0 and output.startswith(b"settled 8\nwagons 1\n") and said == 9
        others += not is_whole
        since = since + 1 if is_whole else 0
    return others


def growths():
    with tempfile.TemporaryDirectory() as folder:
        preload = f"{folder}/refuse.so"
        subprocess.run([os.environ.get("CC", "cc"), "-O2", "-shared", "-fPIC", "-o", preload, TOP / "bench/refuse.c"], check=True)
        stories = sorted((TOP / "examples").glob("*.jsonl"))
        refusals = [refuse_in_replay(preload, story) for story in stories]
        print(f"growths: replay of {len(stories)} stories: {sum(refusals)} growths refused alone, each told or made up for", flush=True)
        kept = refuse_in_journal(preload, TOP / "examples/germany_to_italy.jsonl", folder)
        print(f"growths: a run with a journal: {kept} growths refused alone, each told, and what was answered kept", flush=True)
        print(f"growths: a shift of one railway: {refuse_in_serve(preload)} growths refused alone, each told or settled")
