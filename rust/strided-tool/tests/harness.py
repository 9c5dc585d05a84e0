"""Running the tool and counting what holds."""

import os
import subprocess
import sys
import tempfile

TOOL = os.path.abspath(sys.argv[1]) if len(sys.argv) > 1 else None
HERE = tempfile.TemporaryDirectory(prefix="strided-tool-")


class Count:
    checks = 0
    failures = 0


def check(holds, what):
    Count.checks += 1
    if not holds:
        Count.failures += 1
        print(f"failed: {what}")
    return holds


def path(name):
    return os.path.join(HERE.name, name)


def put(name, content):
    """A file with these bytes or this text; its path."""
    data = content.encode() if isinstance(content, str) else content
    with open(path(name), "wb") as file:
        file.write(data)
    return path(name)


def content(name):
    with open(path(name), "rb") as file:
        return file.read()


def run(*arguments, **options):
    """The tool's exit status, what it prints, and what it says."""
    command = [options.pop("tool", TOOL), *map(str, arguments)]
    done = subprocess.run(command, cwd=HERE.name, capture_output=True, timeout=120, **options)
    return done.returncode, done.stdout.decode(), done.stderr.decode()


def done(*arguments, **options):
    """A run that must be done; what it prints."""
    status, out, err = run(*arguments, **options)
    check(status == 0, f"{arguments} ended with {status}: {err}")
    return out


def found(status, *arguments, **options):
    """A run that must end with this status and say nothing; what it prints."""
    ended, out, err = run(*arguments, **options)
    check(ended == status and err == "", f"{arguments} ended with {ended}: {err}")
    return out


def refused(status, words, *arguments, **options):
    """A run that must end with this status, with all these words on standard error, in at most three lines."""
    found, _, err = run(*arguments, **options)
    lacking = [word for word in words if word not in err]
    check(found == status and not lacking, f"{arguments}: status {found}, lacking {lacking}: {err}")
    check(len(err.splitlines()) <= 3, f"{arguments}: many lines: {err}")
    return err


# Runs a command and prints the most memory that it held, in bytes. In a process of its own, which is small: what a process holds
# when it starts a command counts as the command's.
MEASURE = """import os, sys
_, status, usage = os.wait4(os.posix_spawn(sys.argv[1], sys.argv[1:], os.environ), 0)
print(usage.ru_maxrss * 1024)
sys.exit(os.waitstatus_to_exitcode(status))"""


def peak(*arguments):
    """The most memory that a run held, which must be done, in bytes."""
    return int(done("-c", MEASURE, TOOL, "--quiet", *arguments, tool=sys.executable))


def left_behind():
    """Files that a run should have removed."""
    return [name for name in os.listdir(HERE.name) if name.endswith(".tmp")]


def finish(title):
    check(not left_behind(), f"left behind: {left_behind()}")
    print(f"{title}: {Count.checks} checks, {Count.failures} failed")
    sys.exit(1 if Count.failures else 0)
