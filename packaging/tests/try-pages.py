#!/usr/bin/env python3
"""try-pages.py [--booted] [--pages DIR] PROGRAM [PAGE..]

Runs the commands of QUICKSTART, OPERATING, MIGRATING and TLS as they stand on the page, in one shell for each page, with
PROGRAM as what was built. It fails where one of them fails; where a line of the text behind a command of QUICKSTART isn't
in what it printed; where a configuration of the page is refused; and where a page names a file that isn't there. What
it doesn't run it lists, with the reason.

It needs radclient, make, ip, unshare and root. All is done in namespaces of its own: a network, and an /etc and a
/usr/local that are thrown away. Without root QUICKSTART alone is run, on the machine's own loopback.

  --pages DIR   the pages are read there, as /usr/share/doc/roam, and QUICKSTART is run in an empty folder
  --booted      this machine runs systemd and may be spoilt, as the one of try-deb.sh: services are started too
"""

import os
import re
import shutil
import subprocess
import sys
import tempfile
import textwrap

sys.dont_write_bytecode = True
import stream_tls

ROOT = os.path.dirname(os.path.dirname(os.path.dirname(os.path.abspath(__file__))))
DOCS = os.path.join(ROOT, "docs")
PAGES = ["QUICKSTART", "OPERATING", "MIGRATING", "TLS"]
# A file of the repository, or a page beside this one; and whether the page says that it isn't installed.
NAMES = r"`((?:docs|packaging|load|oracle|crates|examples|samples)/[\w./-]*|[A-Z]+\.md)`( of the source)?"
# A page that `make pages` writes: a clone doesn't have it.
MADE = "docs/DEFINITIONS.md"
SOURCES = ["packaging", "docs", "examples", "oracle", "CHANGELOG.md", "README.md", "SECURITY.md", "LICENSE-MIT", "LICENSE-APACHE"]
# The broker of the samples, which the commands ask.
BROKER = "203.0.113.10"
# With what a command in the middle of a sentence begins.
BEGINNINGS = ("systemctl", "journalctl", "ss", "nstat", "top", "sysctl", "ulimit", "tcpdump", "apt", "make", "mv", "rm")
# What isn't run anywhere, and why.
UNRUN = [
    (r"\b(apt (remove|purge)|disable --now|uninstall|rm -rf?)\b", "it takes away what the next ones need; try-deb.sh runs it"),
    (r"^tcpdump", "it runs until it is ended"),
    (r"^sysctl -w", "it changes the machine, and a container can't"),
    (r"^systemctl edit", "it asks a person"),
    (r"admin\.sock", "it needs haproxy at work; try-streams.py runs it"),
]
# What is run with --booted alone.
OF_SYSTEM = r"\b(systemctl|journalctl|apt)\b"


class Shell:
    """A bash that runs what it is given, and says what was printed and how it ended."""

    def __init__(self, directory, editor):
        environment = dict(os.environ, EDITOR=editor, LC_ALL="C.UTF-8", PAGER="cat", SYSTEMD_PAGER="cat", TERM="dumb",
                           PATH="/usr/local/sbin:/usr/local/bin:/usr/sbin:/usr/bin:/sbin:/bin")
        self.process = subprocess.Popen(["timeout", "300", "bash", "-m"], cwd=directory, env=environment, text=True,
                                        stdin=subprocess.PIPE, stdout=subprocess.PIPE, stderr=subprocess.STDOUT)

    def run(self, command):
        self.process.stdin.write(f"{command}\necho \"--- ended with $? ---\"\n")
        self.process.stdin.flush()
        lines = []
        for line in self.process.stdout:
            ended = re.match(r"(.*)--- ended with (\d+) ---$", line.rstrip("\n"))
            if ended:
                return "".join(lines) + ended[1], int(ended[2])
            lines.append(line)
        sys.exit("the shell ended: " + "".join(lines))

    def close(self):
        self.process.stdin.close()
        self.process.wait()


def lines_of(block):
    """The commands of a block: a line each, with those that it goes on in, and those of a text between apostrophes."""
    found, parts = [], []
    for line in block.splitlines():
        parts.append(line)
        if not re.search(r"(\||&&|\\)$", line) and "\n".join(parts).count("'") % 2 == 0:
            found.append("\n".join(parts))
            parts = []
    return [command for command in found if command.strip()]


def blocks_of(name, page):
    """The commands of a page: those of each block, with the lines that it has to print, and those within sentences."""
    blocks = []
    for _, kind, block, word in re.findall(r"^( *)```(\w*)\n(.*?)^\1```$|`([^`\n]+(?:\n[^`\n]+)?)`", page, re.DOTALL | re.MULTILINE):
        word, block = " ".join(word.split()), textwrap.dedent(block)
        if kind == "sh":
            blocks.append((lines_of(block), []))
        elif kind == "text" and name == "QUICKSTART" and blocks:
            blocks[-1][1].extend(block.splitlines())
        elif word.startswith(tuple(f"{first} " for first in BEGINNINGS)) and not re.search(r"\b[A-Z]{2,}\b(?!=)", word):
            blocks.append(([word], []))
    return blocks


def reason_against(command, shell, booted):
    for pattern, reason in UNRUN:
        if re.search(pattern, command):
            return reason
    if re.search(OF_SYSTEM, command) and not booted:
        return "it needs a Debian with systemd of its own: try-deb.sh has one"
    program = next((word for word in command.split() if "=" not in word), "true")
    return f"there is no {program} here" if shell.run(f"type {program}")[1] else None


def stays_in_foreground(command):
    return re.search(r"roam(?: serve|-run) \S+$", command) is not None


def serve(shell, command, booted):
    """Runs a server that stays in the foreground: without systemd until the end, else until it is seen to serve."""
    if booted:
        shell.run("systemctl stop roam")
    printed, status = shell.run(f"{{ {command}; }} & started=$!; sleep 2; kill -0 $started")
    if booted:
        shell.run("pkill -P $started; wait $started; systemctl start roam; sleep 1")
    return printed, status


class Tally:
    def __init__(self):
        self.ran, self.unrun, self.failed = 0, 0, 0

    def fail(self, text):
        self.failed += 1
        print(f"NO: {text}")


def try_command(command, shell, booted, tally):
    """What a command printed, and its status; none where it isn't run."""
    told = command.replace("\n", " ")
    reason = reason_against(command, shell, booted)
    if reason:
        tally.unrun += 1
        print(f"not run: {told}\n         {reason}")
        return "", None
    tally.ran += 1
    printed, status = serve(shell, command, booted) if stays_in_foreground(command) else shell.run(command)
    print(f"run: {told}")
    return printed, status


def try_commands(name, page, shell, booted, tally):
    """Where text is wanted of a block, the text decides, and else the status of each command."""
    for commands, wanted in blocks_of(name, page):
        all_printed = ""
        for command in commands:
            printed, status = try_command(command, shell, booted, tally)
            all_printed += printed
            if status and not wanted:
                tally.fail(f"{command}\nended with {status}, and printed\n{printed}")
        for line in wanted:
            if line in all_printed:
                print(f"     {line}")
            else:
                tally.fail(f"{line!r} behind\n{commands}\nwhich printed\n{all_printed}")


def configurations(page):
    """The page's configurations: each that begins one, with the tables that the page adds to it, or to the file of examples/migrating."""
    blocks = re.findall(r"^```toml\n(.*?)^```$", page, re.DOTALL | re.MULTILINE)
    whole = [block for block in blocks if not block.startswith("[")]
    with open(os.path.join(ROOT, "examples", "migrating", "roam.conf"), encoding="utf-8") as file:
        begun = whole[0] if whole else file.read()
    return whole + [begun + block for block in blocks if block.startswith("[")]


def try_configurations(page, program, tally):
    for text in configurations(page):
        with tempfile.NamedTemporaryFile("w", suffix=".conf") as file:
            file.write(text)
            file.flush()
            judged = subprocess.run([program, "check", file.name], capture_output=True, text=True)
        tally.ran += 1
        if judged.returncode:
            tally.fail(f"a configuration of the page: {judged.stderr}")
        else:
            print(f"run: roam check of a configuration of the page: {judged.stdout.strip()}")


def try_names(pages, directory, tally):
    """Looks whether the files that the pages name are there."""
    for page in sorted(os.listdir(pages)):
        if not page.endswith(".md"):
            continue
        with open(os.path.join(pages, page)) as file:
            names = re.findall(NAMES, file.read())
        for name, in_source in names:
            places = [ROOT] if in_source else [directory, pages]
            if "NAME" not in name and name != MADE and not any(os.path.exists(os.path.join(place, name)) for place in places):
                tally.fail(f"{page} names {name}, which isn't there")
    print(f"\nfiles that the pages of {pages} name: looked at")


def checkout(program, directory):
    """The repository as the pages have it, with the program in its place."""
    for name in SOURCES:
        source, target = os.path.join(ROOT, name), os.path.join(directory, name)
        if os.path.isdir(source):
            shutil.copytree(source, target, ignore=shutil.ignore_patterns("out", "__pycache__"))
        else:
            shutil.copy(source, target)
    out = os.path.join(directory, "crates", "roam", "out")
    os.makedirs(out)
    shutil.copy(program, os.path.join(out, "roam"))


def editor_for(page, directory):
    """An operator's editor, who adds the page's peer for probes to a file that hasn't got it."""
    probe = re.search(r'^```toml\n(\[\[peer\]\]\nname = "probe"\n.*?)^```$', page, re.DOTALL | re.MULTILINE)
    if not probe:
        return "true"
    secret = re.search(r'^secret = "(.*)"$', probe[1], re.MULTILINE)[1]
    path = os.path.join(directory, "editor")
    with open(path, "w") as file:
        file.write(f"#!/bin/sh\ngrep -q probe \"$1\" || cat >> \"$1\" <<'END'\n{probe[1]}END\n"
                   f"umask 077; echo '{secret}' > /etc/roam/probe.secret\n")
    os.chmod(path, 0o755)
    return path


def try_page(name, pages, program, booted, tally):
    print(f"\n{name}")
    if name == "TLS" and not shutil.which("haproxy", path="/usr/sbin:/usr/bin"):
        print("not run: there is no haproxy here")
        return
    with open(os.path.join(pages, f"{name}.md")) as file:
        page = file.read()
    installed = pages != DOCS
    with tempfile.TemporaryDirectory() as directory:
        editor = editor_for(page, directory)
        if not installed:
            checkout(program, directory)
        shell = Shell(directory, editor)
        if name == "MIGRATING":
            # What the page says of it: it stands in examples/migrating.
            shutil.copy(os.path.join(ROOT, "examples", "migrating", "radsecproxy.conf"), "/etc/radsecproxy.conf")
            shell.run("make -s -C packaging install")
        if name == "TLS":
            # What the page begins with: two certificates, and what revokes others.
            shell.run("make -s -C packaging install")
            stream_tls.make_certificates(directory)
        try_commands(name, page, shell, booted, tally)
        try_configurations(page, program, tally)
        shell.close()


def enter_namespaces(arguments):
    """Runs this script in namespaces of its own, and never returns."""
    os.execvp("unshare", ["unshare", "--mount", "--propagation", "private", "--net", "--pid", "--fork", "--kill-child",
                          "--mount-proc", sys.executable, os.path.abspath(__file__), "--inside", *arguments])


def throw_away_later():
    """From here on what is written to /etc and /usr/local is kept in memory, and gone with these namespaces.

    So is /run, where the sockets of the machine's own services are.
    """
    kept = "/run"
    subprocess.run(["mount", "-t", "tmpfs", "tmpfs", kept], check=True)
    for place in ("/etc", "/usr/local"):
        upper, work = (os.path.join(kept, kind + place.replace("/", "-")) for kind in ("upper", "work"))
        os.makedirs(upper)
        os.makedirs(work)
        options = f"lowerdir={place},upperdir={upper},workdir={work}"
        subprocess.run(["mount", "-t", "overlay", "overlay", "-o", options, place], check=True)


def be_alone():
    """A network with nothing but the broker's address, and places that may be written to."""
    throw_away_later()
    subprocess.run(["ip", "link", "set", "lo", "up"], check=True)


def main():
    arguments = sys.argv[1:]
    inside, booted, pages = False, False, DOCS
    given = list(arguments)
    while given and given[0].startswith("--"):
        option = given.pop(0)
        if option == "--inside":
            inside = True
        elif option == "--booted":
            booted = True
        elif option == "--pages" and given:
            pages = os.path.abspath(given.pop(0))
        else:
            sys.exit(__doc__)
    if not given or not set(given[1:]) <= set(PAGES):
        sys.exit(__doc__)
    names = given[1:] or PAGES
    is_root = os.geteuid() == 0
    if is_root and not booted and not inside:
        enter_namespaces(arguments)
    if inside:
        be_alone()
    if is_root:
        subprocess.run(["ip", "address", "replace", f"{BROKER}/32", "dev", "lo"], check=True)
    tally = Tally()
    for name in names:
        if is_root or name == "QUICKSTART":
            try_page(name, pages, os.path.abspath(given[0]), booted, tally)
        else:
            print(f"\n{name}\nnot run: without root")
    try_names(pages, pages if pages != DOCS else ROOT, tally)
    print(f"pages: {tally.ran} run, {tally.unrun} not run, {tally.failed or 'no'} failure")
    sys.exit(1 if tally.failed else 0)


if __name__ == "__main__":
    main()
