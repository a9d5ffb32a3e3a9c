"""The junctions to choose from: those of examples/, found when the page asks."""
from ..program import LAUNCHER

FOLDER = LAUNCHER.parent / "examples"


def examples():
    """Name and text of each, the folder's own ones first."""
    paths = sorted(FOLDER.glob("**/*.toml"), key=lambda path: (len(path.parts), path))
    found = []
    for path in paths:
        text = path.read_text(encoding="utf-8")
        if "[[group]]" in text:
            found.append({"name": path.relative_to(FOLDER).as_posix(), "text": text})
    return found
