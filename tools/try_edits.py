#!/usr/bin/env python3
"""Tries each must-fail edit on a copy of its crate, and keeps all that the prover says of it in target/must-fail/CRATE/EDIT/.log, which
tools/check_refused.sh reads: `rt ci` tries the edits too, and tells of each no more than the first error.

    python3 tools/try_edits.py [CRATE...]     (no crate: all of them)

Needs the Rattle toolchain. RT_JOBS says how many crates are tried at a time; as many as there are processors if it is not given.
"""

import glob
import os
import queue
import shutil
import subprocess
import sys
import tempfile
import threading

ROOT = os.path.dirname(os.path.dirname(os.path.abspath(__file__)))


def edited(edit, crate):
    """The texts of the files that an edit changes, by their path in the crate."""
    texts, path, old = {}, "", ""
    with open(edit, encoding="utf-8") as it:
        lines = it.read().split("\n")
    for line in lines:
        if line.startswith("file: "):
            path = line[len("file: ") :].strip()
        elif line.startswith("old: "):
            old = line[len("old: ") :]
        elif line.startswith("new:"):
            new = line[len("new:") :].removeprefix(" ")
            if path not in texts:
                with open(os.path.join(crate, path), encoding="utf-8") as it:
                    texts[path] = it.read()
            if texts[path].count(old) != 1:
                sys.exit(f"{edit}: '{old}' stands {texts[path].count(old)} times in {path}, and not once")
            texts[path] = texts[path].replace(old, new)
    return texts


def copied(room):
    """A copy of what a check reads."""
    shutil.copytree(os.path.join(ROOT, "crates"), os.path.join(room, "crates"), ignore=shutil.ignore_patterns("out"))
    for name in ("crates.txt", "HANDLES"):
        if os.path.exists(os.path.join(ROOT, name)):
            shutil.copy(os.path.join(ROOT, name), room)
    subprocess.run(["git", "init", "-q", "."], cwd=room, check=True)


def check(crate):
    return subprocess.run(["rt", "check", "--jobs", "1"], cwd=crate, stdin=subprocess.DEVNULL, stdout=subprocess.PIPE, stderr=subprocess.STDOUT, text=True, errors="replace").stdout


def tried(room, name):
    crate = os.path.join(room, "crates", name)
    logs = os.path.join(ROOT, "target", "must-fail", name)
    shutil.rmtree(logs, ignore_errors=True)
    # what its edits begin with
    check(crate)
    for edit in sorted(glob.glob(os.path.join(crate, "must-fail", "*.edit"))):
        texts = edited(edit, crate)
        was = {}
        for path in texts:
            with open(os.path.join(crate, path), encoding="utf-8") as it:
                was[path] = it.read()
        for texts_now in (texts, was):
            for path, text in texts_now.items():
                with open(os.path.join(crate, path), "w", encoding="utf-8") as it:
                    it.write(text)
            if texts_now is texts:
                said = check(crate)
        folder = os.path.join(logs, os.path.basename(edit).removesuffix(".edit"))
        os.makedirs(folder)
        with open(os.path.join(folder, ".log"), "w", encoding="utf-8") as it:
            it.write(said)
    print("tried the edits of", name, flush=True)


def main(names):
    having = {os.path.basename(os.path.dirname(it)): len(os.listdir(it)) for it in glob.glob(os.path.join(ROOT, "crates", "*", "must-fail"))}
    wanted = sorted((it for it in having if not names or it in names), key=lambda it: -having[it])
    left = queue.Queue()
    for name in wanted:
        left.put(name)
    failed = []

    def work():
        room = tempfile.mkdtemp(prefix="edits-")
        try:
            copied(room)
            while True:
                tried(room, left.get_nowait())
        except queue.Empty:
            pass
        except BaseException as error:
            failed.append(error)
        finally:
            shutil.rmtree(room, ignore_errors=True)

    workers = [threading.Thread(target=work) for _ in range(min(len(wanted), int(os.environ.get("RT_JOBS") or os.cpu_count() or 2)))]
    for it in workers:
        it.start()
    for it in workers:
        it.join()
    for error in failed:
        print(f"try_edits: {error}", file=sys.stderr)
    return 1 if failed else 0


if __name__ == "__main__":
    raise SystemExit(main(sys.argv[1:]))
