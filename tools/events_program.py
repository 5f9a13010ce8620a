"""The program `events` as a command, and the lines that it prints. EVENTS='COMMAND WORDS' names another command in its place."""
import os
import pathlib
import subprocess
import sys

ROOT = pathlib.Path(__file__).resolve().parent.parent


def command():
    words = os.environ.get("EVENTS", "").split()
    if words:
        return words
    shown = subprocess.run([ROOT / "tools/run-program", "--words", "events"], stdout=subprocess.PIPE, check=False)
    if shown.returncode:
        sys.exit(shown.returncode)
    return shown.stdout.decode().splitlines()


def lines_of(file):
    """What it prints for an event file, given as bytes."""
    return subprocess.run(command(), input=file, stdout=subprocess.PIPE, check=True, cwd=ROOT).stdout.decode().splitlines()


def lines_of_example(name):
    """What it prints for examples/NAME.txt."""
    built = ["cargo", "build", "--quiet", "--release", "--offline", "--manifest-path", "tools/event-text/Cargo.toml"]
    subprocess.run(built + ["--target-dir", "target/cargo"], check=True, cwd=ROOT)
    text = (ROOT / "examples" / f"{name}.txt").read_bytes()
    encoded = subprocess.run([ROOT / "target/cargo/release/event-text", "encode"], input=text, stdout=subprocess.PIPE, check=True)
    return lines_of(encoded.stdout)
