"""What rt makes of a function for its proof, read for `paths` and `joins`: steps, their fields, and the ways into a joined place."""
import pathlib
import re
import subprocess
import sys
import tempfile

ROOT = pathlib.Path(__file__).resolve().parent.parent.parent
RECORD = re.compile(r"^ *pub (record|data) (\S+) ")
FIELD = re.compile(r"^( *)(?:pub )?([^\s:(){}=]+) :(?:\s+(.*))?$")


def declared(text):
    """Of each record its fields, each with the head of its type; of each enum its constructors, each with what it takes."""
    found, name, inside = {}, None, None
    for line in text.split("\n"):
        head, field = RECORD.match(line), FIELD.match(line)
        depth = len(line) - len(line.lstrip())
        if head:
            name, inside = head[2], None
            found[name] = []
            at = depth
        elif name and line.strip() and depth <= at:
            name = None
        elif name and field and inside in (None, depth):
            inside = depth
            found[name].append((field[2], re.sub(r"^Lts\.", "", (field[3] or "").split(" ")[0])))
    return found


class Made:
    """What was made of one function: its steps and places, and the place at which each goal stands."""

    def __init__(self, steps, view):
        self.steps, self.name = declared(steps.read_text()), ".".join(steps.parent.parts)
        said = view.read_text()
        self.places = {n[3:]: dict(fields).get("before") for n, fields in declared(said).items() if n.startswith("In-")}
        self.goals = re.findall(r"^ *Named-(\S+) =\s+\(c : In-([^\s)]+)", said, re.M)


def functions(tool, crate, function):
    """Runs `rt check --generated` for a function; usually there is one."""
    folder = ROOT / "crates" / crate
    if not folder.is_dir():
        sys.exit(f"{tool}: there is no crate {crate}")
    with tempfile.TemporaryDirectory() as room:
        run = subprocess.run(["rt", "check", "--generated", room, "--start", function], cwd=folder, stdout=subprocess.PIPE,
                             stderr=subprocess.STDOUT, text=True)
        found = sorted(pathlib.Path(room).glob("**/Lts*.antt"))
        if not found:
            sys.exit(f"{run.stdout}{tool}: rt made nothing of {crate}::{function} (status {run.returncode})")
        return [Made(steps, steps.with_suffix("") / "View.antt") for steps in found]
