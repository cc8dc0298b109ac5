"""Tables in Markdown, as docs/FIGURES.md has them, and what they are of: the commit, the day and the machine."""
import os
import pathlib
import re
import subprocess
import time

HERE = pathlib.Path(__file__).resolve().parent


def made_of():
    """The commit that is measured, and the day."""
    words = ["git", "-C", HERE, "describe", "--always", "--dirty"]
    commit = subprocess.run(words, capture_output=True, text=True).stdout.strip()
    return f"{commit}, {time.strftime('%Y-%m-%d')}"


def machine():
    models = re.findall(r"^model name\s*: (.*)$", pathlib.Path("/proc/cpuinfo").read_text(), re.M)
    return f"{os.cpu_count()} processors" + f" ({models[0]})" * bool(models)


def table(*heads, left=()):
    """The head of a table. The columns at these places stand at the left."""
    edges = "".join("---|" if at in left else "---:|" for at in range(len(heads)))
    print(f"\n| {' | '.join(heads)} |\n|{edges}", flush=True)


def row(*cells):
    print("| " + " | ".join(f"{it:,}" if isinstance(it, int) else it for it in cells) + " |", flush=True)
