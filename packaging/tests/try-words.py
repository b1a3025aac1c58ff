#!/usr/bin/env python3
"""try-words.py PROGRAM

Runs PROGRAM with the words, configurations and scripts of command_rows.py and diagnosis_rows.py, and looks at all that it prints and
tells, and at its status: also where an output takes no more, and where a server's answer is cut or would steer a terminal.
"""
import os
import resource
import socket
import subprocess
import sys
import tempfile
import threading

sys.dont_write_bytecode = True
import command_rows as rows
import diagnosis_rows as diagnosis
from looks import be_quiet, changed, end, want, words
from server import run


class Trial:
    """The program, and a folder for what it reads."""

    def __init__(self, program, folder):
        self.program, self.folder = program, folder

    def file(self, name, text):
        path = os.path.join(self.folder, name)
        with open(path, "wb") as file:
            file.write(text if isinstance(text, bytes) else text.encode())
        return path

    def ends(self, words, status, printed, told):
        found = run(self.program, *words)
        want(found == (status, printed, told), f"{words}: {found}, not {(status, printed, told)}")


def look_at_words(trial):
    """Other words than those of a command give the usage."""
    for words in rows.NO_COMMANDS:
        trial.ends(words, 2, "", rows.USAGE)
    for words in rows.UNTIMED_WORDS:
        trial.ends(words, 2, "", f"roam: {words[-1]}: not a number of milliseconds from 1 to 86400000\n{rows.USAGE}")
    for words in rows.UNKNOWN_WORDS:
        trial.ends(words, 2, "", f"roam: {words[0]}: no such command\n{rows.USAGE}")
    for word in ("help", "--help", "-h"):
        trial.ends([word], 0, rows.USAGE, "")
    _, version, _ = run(trial.program, "version")
    want(version.startswith("roam 1.0.0\nrattle-kit-") and version.count("\n") == 2, f"the version is {version!r}")
    for word in ("--version", "-V"):
        trial.ends([word], 0, version, "")


def lines_of(path, lines):
    return "".join(f"{path}:{number}: {words}\n" if number else f"{path}: {words}\n" for number, words in lines)


def look_at_configurations(trial):
    """What is told and stated of configurations that are accepted, and how two of them are compared."""
    least, larger = trial.file("least.conf", rows.CONFIGURATION), trial.file("larger.conf", rows.LARGER)
    trial.ends(["check", least], 0, "ok realms 1 peers 1 shards 1\n", lines_of(least, rows.LEAST_ADVICE))
    trial.ends(["check", larger], 0, "ok realms 3 peers 2 shards 5\n", lines_of(larger, rows.ADVICE))
    for text, stated in ((rows.CONFIGURATION, rows.STATED), (rows.STATED, rows.STATED), (rows.FULL, rows.FULL)):
        trial.ends(["check", "--all", trial.file("stated.conf", text)], 0, stated, "")
    more = trial.file("more.conf", rows.LARGER + rows.FOURTH)
    trial.ends(["check", larger, more], 0, rows.ADDED, "")
    trial.ends(["check", more, larger], *rows.REMOVED, f"roam: {larger}: needs a restart\n" if rows.REMOVED[0] else "")


def look_at_faults(trial):
    """A configuration at fault is refused by its name, whatever is to be done with it."""
    for old, new, name, place in rows.REFUSED:
        path = trial.file("refused.conf", changed(rows.CONFIGURATION, old, new, 1))
        told = f"roam: {path}: {name}\n{path}{place}\n"
        # Its own text is no script, and that isn't looked at.
        for words in (["check", path], ["check", "--all", path], ["sim", path, path], ["serve", path], ["serve", path, "86400000"]):
            trial.ends(words, 1, "", told)


def look_at_diagnoses(trial):
    """Of each change of the sample it is told what is wrong or unwise, and where."""
    for old, new, wanted in diagnosis.TOLD:
        path = trial.file("a.conf", diagnosis.SAMPLE if old == new else changed(diagnosis.SAMPLE, old, new, 1))
        fault, end, lines = wanted.partition("\n")
        if fault.isalpha():
            told, ends = f"roam: {path}: {fault}{end}" + lines.replace("a.conf", path), (1, "")
        else:
            told, ends = wanted.replace("a.conf", path), (0, "ok realms")
        status, printed, said = run(trial.program, "check", path)
        want((status, printed[:9], said) == (*ends, told), f"{new!r}: {status} {printed} {said}, not {told!r}")


def look_at_files(trial):
    """All files are read before a configuration is judged."""
    good, bad = trial.file("good.conf", rows.CONFIGURATION), trial.file("bad.conf", "shards = \n")
    binary = trial.file("binary", b"#\n\n#\xff\n\xff")
    for path, why in ((binary, ":3: isn't UTF-8"), (trial.folder, ": Is a directory"), ("/nowhere/at/all", ": No such file or directory"),
                      ("/dev/null/file", ": Not a directory"), ("", ": No such file or directory")):
        for words in (["check", path], ["check", "--all", path], ["check", path, "/nowhere"], ["check", bad, path], ["serve", path],
                      ["serve", path, "1"], ["sim", path, "/nowhere"], ["sim", good, path], ["sim", bad, path]):
            trial.ends(words, 1, "", f"roam: {path}{why}\n")


def look_at_scripts(trial):
    """Scripts are run, or refused for their first faulty line."""
    path = trial.file("run.conf", rows.CONFIGURATION)
    for text, printed in ((rows.EXCHANGE, rows.EXCHANGED), ("", ""), ("# T\n\n", ""), ("T 0 0", "")):
        trial.ends(["sim", path, trial.file("run.script", text)], 0, printed, "")
    for line in [line for _, line in rows.FAULTY] + ["A 0 acct 192.0.2.1:5000 " + "0a" * 65536]:
        script = trial.file("faulty.script", f"{rows.EXCHANGE}\n{line}\nT 0 0\n{line}\n")
        trial.ends(["sim", path, script], 1, "", f"roam: {script}: line 5\n")
    trial.ends(["sim", path, trial.file("long.script", "A 0 acct 192.0.2.1:5000 " + "0a" * 65535)], 0, "", "")


def look_at_writes(trial):
    """An output that takes no more is told, and what can't be told leaves the status as it is."""
    path, script = trial.file("write.conf", rows.CONFIGURATION), trial.file("write.script", rows.EXCHANGE)
    out = os.path.join(trial.folder, "out")
    for words, size, told in ((["check", path], 29, lines_of(path, rows.LEAST_ADVICE)), (["check", "--all", path], len(rows.STATED), ""),
                              (["sim", path, script], len(rows.EXCHANGED), "")):
        for room in sorted({*range(0, size, 7), size - 1, size}):
            with open(out, "wb") as file:
                # The signal is ignored here, and stays so: a write past the limit fails (setrlimit(2)).
                ran = subprocess.run([trial.program, *words], stdout=file, stderr=subprocess.PIPE, timeout=60, check=False, restore_signals=False,
                                     preexec_fn=lambda room=room: resource.setrlimit(resource.RLIMIT_FSIZE, (room, room)))
            wanted = (1, "roam: write failed\n") if room < size else (0, told)
            want((ran.returncode, ran.stderr.decode()) == wanted, f"{words} with room for {room} octets: {ran}")
    with open("/dev/full", "wb") as full:
        for words, status in (([], 2), (["chek"], 2), (["check", "/nowhere"], 1)):
            ran = subprocess.run([trial.program, *words], stdout=subprocess.PIPE, stderr=full, timeout=60, check=False)
            want((ran.returncode, ran.stdout) == (status, b""), f"{words} that can't be told: {ran}")


def look_at_answers(trial):
    """What is shown of a server's answer, and whether it is whole; where nobody listens there is none."""
    nobody = trial.file("no-socket", "")
    for path, why in (("/nowhere/control", rows.NO_PATH), (nobody, rows.NOBODY)):
        for order in ("status", "metrics", "stop", "reload"):
            trial.ends(["ctl", path, order], 1, "", f"roam: {path}: {why}\n")
    path = os.path.join(trial.folder, "control")
    with socket.socket(socket.AF_UNIX) as listener:
        listener.bind(path)
        listener.listen()

        def answer(octets):
            stream, _ = listener.accept()
            with stream:
                stream.recv(4096)
                stream.sendall(octets)
                stream.shutdown(socket.SHUT_WR)
                # Until all was taken.
                stream.recv(1)

        def asked(octets, status, printed, told):
            thread = threading.Thread(target=answer, args=(octets,))
            thread.start()
            trial.ends(["ctl", path, "metrics"], status, printed, told)
            thread.join()

        for octets, shown in rows.SHOWN:
            asked(b"HTTP/1.1 200 OK\r\ncontent-length: %d\r\n\r\n" % len(octets) + octets, 0, shown, "")
        for octets, is_whole in rows.ANSWERS:
            head, end, body = octets.partition(b"\r\n\r\n")
            if is_whole:
                asked(octets, 0, body.decode(), "")
            else:
                asked(octets, 1, body.decode(), f"roam: {path}: answer cut\n" if end else f"roam: {path}: no answer\n")


def main():
    [program] = words(__doc__)
    be_quiet()
    with tempfile.TemporaryDirectory() as folder:
        trial = Trial(program, folder)
        for look in (look_at_words, look_at_configurations, look_at_faults, look_at_diagnoses, look_at_files, look_at_scripts,
                     look_at_writes, look_at_answers):
            look(trial)
    return end("words, configurations, scripts and answers are told as they should be")


if __name__ == "__main__":
    sys.exit(main())
