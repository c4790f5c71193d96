"""Debian's source package of protobuf, which holds protobuf's own test data and its conformance suite."""
import os
import subprocess
import sys


def run(*words, **how):
    return subprocess.run(words, check=True, stdout=subprocess.PIPE, **how).stdout


def fetch(folder):
    """The source package in a folder, unpacked. It is fetched by `apt-get source` where it is not there yet."""
    unpacked = [it.path for it in os.scandir(folder) if it.is_dir() and it.name.startswith("protobuf-")]
    if unpacked:
        return unpacked[0]
    release = dict(line.rstrip().split("=", 1) for line in open("/etc/os-release") if "=" in line)["VERSION_CODENAME"].strip('"')
    with open(os.path.join(folder, "sources.list"), "w") as out:
        out.write(f"deb-src http://deb.debian.org/debian {release} main\n")
    os.makedirs(os.path.join(folder, "lists", "partial"), exist_ok=True)
    apt = ["apt-get", "-q", "-o", f"Dir::Etc::sourcelist={folder}/sources.list", "-o", "Dir::Etc::sourceparts=/dev/null"]
    apt += ["-o", f"Dir::State::lists={folder}/lists"]
    run(*apt, "update")
    run(*apt, "source", "--download-only", "protobuf", cwd=folder)
    archive = next(it for it in os.listdir(folder) if ".orig.tar" in it)
    run("tar", "-xf", archive, cwd=folder)
    return fetch(folder)


def fetched(folder, otherwise):
    """As fetch; where the package can't be had, says what then is and returns None."""
    try:
        return fetch(folder)
    except (OSError, subprocess.CalledProcessError) as fault:
        print(f"protobuf's source is not fetched ({fault}), so {otherwise}; --source names a folder that has it", file=sys.stderr, flush=True)
        return None
