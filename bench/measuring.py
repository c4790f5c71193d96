"""What the scripts that measure share: which tools are there, what a process took, and the file of the figures.

Each script puts what it measured under its own word into bench/figures.json, with the day, the load and the commit. bench/report makes the
tables of docs/SPEED.md and the plot of that file alone, so no number is typed by hand."""
import datetime
import json
import os
import shutil
import subprocess
import sys

HERE = os.path.dirname(os.path.abspath(__file__))
TOP = os.path.dirname(HERE)
FIGURES = os.path.join(HERE, "figures.json")
# Debian's packages of the tools.
PACKAGES = {"protoc": "protobuf-compiler", "g++": "g++", "gcc": "gcc", "rustc": "rustc", "git": "git"}


def want(*tools):
    """Ends with a message where a tool is not there."""
    missing = [it for it in tools if not shutil.which(it)]
    if missing:
        sys.exit(f"not installed: {', '.join(missing)} (Debian: {' '.join(PACKAGES.get(it, it) for it in missing)})")


def say(*words):
    print(*words, file=sys.stderr, flush=True)


def run(*words, **how):
    """What a command prints. Where it fails, all ends with what it printed."""
    ran = subprocess.run(words, stdout=subprocess.PIPE, stderr=subprocess.PIPE, **how)
    if ran.returncode:
        sys.exit(f"{' '.join(words)}: status {ran.returncode}\n{(ran.stdout + ran.stderr).decode(errors='replace')[-2000:]}")
    return ran.stdout


def lines_of(crates, libraries):
    """The lines of crates.txt beside a folder of crates, of these libraries and of those below them, by crate."""
    with open(os.path.join(os.path.dirname(os.path.abspath(crates)), "crates.txt")) as listed:
        lines = {line.split(":")[0].split()[0]: line for line in listed if ":" in line and not line.startswith("#")}
    found, left = {}, list(libraries)
    while left:
        crate = left.pop()
        if crate in lines and crate not in found:
            found[crate] = lines[crate]
            left += lines[crate].split(":")[1].split()
    return found


def build_ours(name, crates, work, libraries, sources):
    """A Rattle program over libraries of a folder of crates, proved and built in a copy of these and of those below them: the path of the program.

    The copy is WORK/NAME. What `rt check` kept in the crates' out folders serves there too, and where that is not all, what `rt ci` keeps."""
    copy, lines = os.path.join(work, name), lines_of(crates, libraries)
    for crate in lines:
        folder = os.path.join(copy, "crates", crate)
        shutil.rmtree(folder, ignore_errors=True)
        os.makedirs(os.path.dirname(folder), exist_ok=True)
        run("cp", "-a", os.path.join(crates, crate), folder)
        # The gate reports whether the mutants are refused.
        shutil.rmtree(os.path.join(folder, "must-fail"), ignore_errors=True)
    program = os.path.join(copy, "crates", "timing")
    os.makedirs(os.path.join(program, "src"), exist_ok=True)
    # The sources end in .txt, since the gate refuses a .rt file that no crate of its own reads.
    for part, source in sources.items():
        shutil.copyfile(source, os.path.join(program, "src", f"{part}.rt"))
    shutil.copy(os.path.join(os.path.dirname(os.path.abspath(crates)), "HANDLES"), copy)
    with open(os.path.join(copy, "crates.txt"), "w") as out:
        out.write("".join(lines.values()) + f"timing: {' '.join(libraries)}\n")
    run("git", "init", "-q", copy)
    built = os.path.join(program, "out", "timing")
    if os.path.exists(built):
        os.remove(built)
    say(f"proving and building the program of {name} in {copy}")
    is_checked = all(os.path.isfile(os.path.join(copy, "crates", it, "out", "rlib", "stamp")) for it in lines)
    for words, folder in ([] if is_checked else [(("rt", "ci"), copy)]) + [(("rt", "run"), program)]:
        ran = subprocess.run(words, cwd=folder, stdin=subprocess.DEVNULL, capture_output=True, text=True)
        # The program is run too, here without words, so what counts is whether it is there.
        if os.path.exists(built):
            return built
    sys.exit(f"the program of {name} is not proved:\n{(ran.stdout + ran.stderr)[-3000:]}")


def build_peer(source, out):
    """A C++ program over libprotobuf."""
    want("g++", "protoc")
    ran = subprocess.run(["g++", "-O2", "-o", out, source, "-lprotobuf"], capture_output=True, text=True)
    if ran.returncode:
        sys.exit(f"{source} is not built; is libprotobuf there (Debian: libprotobuf-dev)?\n{ran.stderr[-2000:]}")
    return out


def pbtool():
    """The released program, or the one that is built here."""
    return run(os.path.join(TOP, "dist", "program")).decode().strip()


def library():
    """The folder of a library for C of these sources: one that was made here, or the released one."""
    return run(os.path.join(TOP, "dist", "library")).decode().strip()


def texts(work, scale):
    """The inputs of bench/texts/make_texts.py in a folder, made where they are not there yet."""
    folder = os.path.join(work, f"texts.{scale}")
    if not os.path.exists(folder):
        say("making the inputs")
        run(sys.executable, os.path.join(HERE, "texts", "make_texts.py"), folder + ".new", str(scale))
        os.rename(folder + ".new", folder)
    return folder


class Process:
    """Runs commands by the program process.c."""

    def __init__(self, folder):
        want("gcc")
        self.program = os.path.join(folder, "process")
        run("gcc", "-O2", "-o", self.program, os.path.join(HERE, "process.c"))

    def one(self, words, given):
        """A whole process: its seconds, its seconds of processor time, the most memory in MB, and its status."""
        seconds, cpu, kilobytes, status = run(self.program, given, *words).split()
        return float(seconds), float(cpu), int(kilobytes) / 1000, int(status)

    def in_turn(self, commands, rounds):
        """By name of a command (its words, and a file that it is given): the best seconds, the best processor time, the most memory and the
        statuses of a number of runs of each, in turn."""
        taken = {name: [] for name in commands}
        for _ in range(rounds):
            for name, command in commands.items():
                taken[name].append(self.one(*command))
        return {
            name: {"seconds": min(it[0] for it in runs), "cpu": min(it[1] for it in runs), "MB": max(it[2] for it in runs),
                   "status": sorted({it[3] for it in runs})}
            for name, runs in taken.items()
        }


class Load:
    """The load of the machine over a run: the least and the most of what was seen."""

    def __init__(self):
        self.seen = []
        self.look()

    def look(self):
        self.seen.append(os.getloadavg()[0])

    def reported(self):
        return [round(min(self.seen), 1), round(max(self.seen), 1)]


def machine():
    model = next((line.split(":")[1].strip() for line in open("/proc/cpuinfo") if line.startswith("model name")), "unknown")
    return f"{model}, {os.cpu_count()} processors"


def written(figures):
    """What the file holds: a line for each fact of a part, and for each row of a list."""
    def line(value):
        if isinstance(value, list) and value and isinstance(value[0], dict):
            return "[\n   " + ",\n   ".join(map(line, value)) + "\n  ]"
        return json.dumps(value, sort_keys=True)

    parts = (f' "{part}": {{\n' + ",\n".join(f'  "{key}": {line(it)}' for key, it in sorted(facts.items())) + "\n }" for part, facts in sorted(figures.items()))
    return "{\n" + ",\n".join(parts) + "\n}\n"


def save(part, load, figures):
    """Puts figures in the place of those that an earlier run of the same script left."""
    load.look()
    commit = subprocess.run(["git", "-C", TOP, "rev-parse", "--short", "HEAD"], capture_output=True, text=True).stdout.strip()
    protobuf = run("protoc", "--version").decode().split()[-1]
    facts = {"date": datetime.date.today().isoformat(), "load": load.reported(), "machine": machine(), "commit": commit, "protobuf": protobuf}
    kept = json.load(open(FIGURES)) if os.path.exists(FIGURES) else {}
    kept[part] = {**facts, **figures}
    with open(FIGURES + ".new", "w") as out:
        out.write(written(kept))
    os.replace(FIGURES + ".new", FIGURES)
