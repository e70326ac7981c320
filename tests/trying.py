"""Tries the must-fail edits: `rt check` of a crate with an edit made, in a scratch repository outside this one.

`rt must-fail` tries the same edits, and shows the first line of what the prover said. Here all of it is kept, so that each program of a
file can be held to what refuses it: target/must-fail/CRATE/EDIT.log, beside it the verdict (.res) and a line that says both (.out).
`rt check` begins with what a check of the same crate kept, here or in another copy on this machine, and checks what the edit changes,
and what rests on that, alone."""
import os, pathlib, re, shutil, subprocess, tempfile, threading
import must_fail

CRATES = must_fail.ROOT / "crates"
PARTS = ("src", "specs", "proofs")
DEPENDS = {name: words.split() for name, words in re.findall(r"^(\w+):(.*)", (must_fail.ROOT / "crates.txt").read_text(), re.M)}


def below(crate):
    """The crates of this repository that a crate stands on, the lowest first."""
    found = []
    for name in filter(DEPENDS.__contains__, DEPENDS[crate]):
        found += [one for one in [*below(name), name] if one not in found]
    return found


def lay(crate, room):
    """Lays the crate and those below it, as they stand here, into the scratch repository; a file that is there already stays."""
    names = [*below(crate), crate]
    for name in names:
        for part in PARTS:
            wanted = {file.relative_to(CRATES): file for file in (CRATES / name / part).rglob("*") if file.is_file()}
            for file in (room / "crates" / name / part).rglob("*"):
                if file.is_file() and file.relative_to(room / "crates") not in wanted:
                    file.unlink()
            for place, file in wanted.items():
                copy = room / "crates" / place
                if not copy.exists() or copy.read_bytes() != file.read_bytes():
                    copy.parent.mkdir(parents=True, exist_ok=True)
                    shutil.copyfile(file, copy)
    (room / "crates.txt").write_text("".join(f"{name}: {' '.join(DEPENDS[name])}\n" for name in names))


def change(edit, room):
    """Makes the edit in the scratch repository."""
    for program in edit.programs:
        for where, old, new in program.pairs:
            file = room / "crates" / edit.crate / where
            file.write_text(file.read_text().replace(old, new))


def check(crate, room):
    """What `rt check` says of a crate, the status with which it ends, and its seconds of processor time."""
    ran = subprocess.Popen(["rt", "check"], cwd=room / "crates" / crate, stdout=subprocess.PIPE, stderr=subprocess.STDOUT, text=True)
    said = ran.stdout.read()
    _, status, used = os.wait4(ran.pid, 0)
    return said, os.waitstatus_to_exitcode(status), used.ru_utime + used.ru_stime


def attempt(edit, room):
    edit.tried.parent.mkdir(parents=True, exist_ok=True)
    lay(edit.crate, room)
    change(edit, room)
    log, status, took = check(edit.crate, room)
    edit.tried.with_suffix(".log").write_text(log)
    refused = status == 1 and re.search(r"^logic=not-proved", log, re.M)
    edit.tried.with_suffix(".res").write_text("refused\n" if refused else "survived\n")
    said = f"must-fail {edit.crate}/{edit.file.stem}: {'refused, as it must be' if refused else 'NOT REFUSED'} ({took:.0f} s)"
    edit.tried.with_suffix(".out").write_text(said + "\n")
    print(said, flush=True)


def attempt_all(edits):
    """Tries the edits, crate by crate and two crates at a time: each crate is checked as it stands first, and where it is not proved,
    its edits are not tried."""
    os.nice(10)
    waiting, lock = [crate for crate in DEPENDS if any(edit.crate == crate for edit in edits)], threading.Lock()
    for edit in edits:
        for ending in (".log", ".res", ".out"):
            edit.tried.with_suffix(ending).unlink(missing_ok=True)

    def work():
        with tempfile.TemporaryDirectory(prefix="must-fail-") as folder:
            room = pathlib.Path(folder)
            while True:
                with lock:
                    if not waiting:
                        return
                    crate = waiting.pop(0)
                lay(crate, room)
                if check(crate, room)[1] != 0:
                    print(f"must-fail {crate}: the crate itself is not proved", flush=True)
                    continue
                for edit in edits:
                    if edit.crate == crate:
                        attempt(edit, room)

    workers = [threading.Thread(target=work) for _ in range(max(1, os.cpu_count() // 2))]
    for worker in workers:
        worker.start()
    for worker in workers:
        worker.join()
