#!/usr/bin/env python3
"""Gives the program a line of 4 GiB without an end, and tells the memory and the time that this takes:
bench/outside/long_line.py [RUNS]

As line 1, and as line 2 behind a good genesis, the line is given

  file    as a file of 4 GiB, of zeros that take no room on the disk
  pipe    by a writer of spaces, which goes on until the program has ended
  brim    by a writer that stops at 4,194,304 bytes, the longest line there may be, until the memory was looked at, and
          then goes on

Each run ends with 3 and `line L: limit line`, having printed the texts of the lines before. What is told is the most
memory (VmHWM, as the system tells it while the program runs), the clock's seconds, and how many bytes were taken; for
comparison, the same for the genesis alone. The least of RUNS (3) counts for time, the most for memory.
Ends with 0 where each run ended as it has to, else with 1."""
import os, pathlib, subprocess, sys, tempfile, threading, time

TOP = pathlib.Path(__file__).resolve().parents[2]
PROGRAM = os.environ.get("STAKEPLAY", str(TOP / "crates/stakeplay/out/stakeplay"))
LIMIT, WHOLE = 4194304, 1 << 32


def memory_of(process):
    """The most memory in bytes that a process had so far, 0 where it is not the program yet or is gone."""
    try:
        lines = pathlib.Path(f"/proc/{process.pid}/status").read_text().splitlines()
        words = {line.split(":")[0]: line.split()[1] for line in lines if line.startswith(("Name:", "VmHWM:"))}
        return int(words["VmHWM"]) * 1024 if words["Name"] in pathlib.Path(PROGRAM).name else 0
    except (OSError, KeyError, IndexError):
        return 0


def watched(process):
    """How a run ends, its most memory and its time."""
    begin, most = time.monotonic(), 0
    said = []
    readers = [
        threading.Thread(target=lambda pipe=pipe: said.append((pipe, pipe.read())))
        for pipe in (process.stdout, process.stderr)
    ]
    for reader in readers:
        reader.start()
    while process.poll() is None:
        most = max(most, memory_of(process))
        time.sleep(0.0002)
    took = time.monotonic() - begin
    for reader in readers:
        reader.join()
    texts = dict(said)
    return process.returncode, texts[process.stdout], texts[process.stderr].decode().strip(), most, took


def fed(process, before, is_brim, told):
    """Writes a line without an end, and tells how much of it was taken."""
    sent, piece = 0, b" " * 65536
    try:
        process.stdin.write(before)
        while sent < WHOLE:
            if is_brim and sent == LIMIT:
                time.sleep(0.5)
                told["at the brim"] = memory_of(process)
            sent += process.stdin.write(piece)
    except BrokenPipeError:
        pass
    finally:
        told["taken"] = sent
        try:
            process.stdin.close()
        except BrokenPipeError:
            pass


def genesis_alone(genesis):
    """What a run of the genesis alone writes, and its memory while it waits for more."""
    process = subprocess.Popen([PROGRAM, "-", "replay"], stdin=-1, stdout=-1, stderr=-1, bufsize=0)
    process.stdin.write(genesis)
    time.sleep(0.5)
    most = memory_of(process)
    return process.communicate()[0], most


def by_file(room, before):
    path = room / "line"
    path.write_bytes(before)
    os.truncate(path, len(before) + WHOLE)
    with path.open("rb") as lines:
        return watched(subprocess.Popen([PROGRAM, "-", "replay"], stdin=lines, stdout=-1, stderr=-1)), {}


def by_pipe(before, is_brim):
    process = subprocess.Popen([PROGRAM, "-", "replay"], stdin=-1, stdout=-1, stderr=-1, bufsize=0)
    told = {}
    writer = threading.Thread(target=fed, args=(process, before, is_brim, told))
    writer.start()
    ended = watched(process)
    writer.join()
    return ended, told


def main():
    runs, bad = int(sys.argv[1]) if len(sys.argv) > 1 else 3, 0
    genesis = (TOP / "examples/one-send.jsonl").read_bytes().splitlines(keepends=True)[0]
    with tempfile.TemporaryDirectory(prefix="outside-") as name:
        room = pathlib.Path(name)
        told, most = genesis_alone(genesis)
        print(f"the genesis alone: {most / 1e6:.1f} MB")
        for line, before in ((1, b""), (2, genesis)):
            printed = told.splitlines(keepends=True)[0] if before else b""
            for way in ("file", "pipe", "brim"):
                tries = [
                    by_file(room, before) if way == "file" else by_pipe(before, way == "brim") for _ in range(runs)
                ]
                for (status, wrote, said, _, _), _ in tries:
                    if (status, wrote, said) != (3, printed, f"stakeplay: line {line}: limit line"):
                        bad += 1
                        print(f"line {line}, {way}: ended with {status}, {said}, wrote {len(wrote)} bytes")
                most, took = max(ended[3] for ended, _ in tries), min(ended[4] for ended, _ in tries)
                more = {key: max(each[key] for _, each in tries) for key in tries[0][1]}
                beside = "".join(f", {value / 1e6:.1f} MB {key}" for key, value in sorted(more.items()))
                print(f"line {line}, {way}: most memory {most / 1e6:.1f} MB, {took:.3f} s{beside}", flush=True)
    print("each ended by the limit of a line" if not bad else f"{bad} ended otherwise")
    sys.exit(1 if bad else 0)


if __name__ == "__main__":
    main()
