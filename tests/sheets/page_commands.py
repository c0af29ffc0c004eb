"""The commands that a page shows."""

import os
import subprocess


def run(name, text, top, path=os.environ["PATH"]):
    """Each command behind a dollar sign prints what stands below it; a blank line is part of that where more of it follows. Gives how many
    there are."""
    ran, lines = 0, text.splitlines()
    for i, line in enumerate(lines):
        if not line.startswith("    $ "):
            continue
        shown = []
        for below, after in zip(lines[i + 1:], lines[i + 2:] + [""]):
            if not (below or after).startswith("    ") or (below or after).startswith("    $ "):
                break
            shown.append(below[4:])
        done = subprocess.run(line[6:].replace("./example ", "target/c/example "), shell=True, cwd=top, text=True,
                              capture_output=True, env=dict(os.environ, PYTHONDONTWRITEBYTECODE="1", PATH=path))
        assert done.returncode == 0 and not done.stderr, (line, done)
        assert done.stdout.splitlines() == shown, "%s: %s prints\n%s" % (name, line, done.stdout)
        ran += 1
    return ran
