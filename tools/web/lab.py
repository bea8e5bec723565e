"""Which of the lab the page has, as modules of JavaScript."""
from pathlib import Path

from .translate.writing import translated

#: The names of the lab that the page's own modules import.
WANTED = {
    "choices": ["choices"],
    "diagnose": ["surprises"],
    "documents": ["cut_short"],
    "drawing": ["HATCH", "HEAD", "ROW", "Drawing", "svg_file"],
    "elements": ["Element"],
    "errors": ["LabError", "ScriptFault", "StoppedMacro"],
    "expand": ["Expanded", "Expander", "_check_first", "expand"],
    "fates": ["read_fates"],
    "layout": ["picture_of", "window"],
    "macros": ["CannotGoOn"],
    "observe": ["observe"],
    "page": ["flags", "rests"],
    "player": ["Player"],
    "program": ["play", "script_bytes"],
    "script": ["is_silent", "set_size", "split_lines"],
    "show": ["printable"],
    "state": ["changes", "read_state"],
    "telling": ["what_happened"],
    "traces": ["judged"],
    "transcript": ["Transcript"],
    "verdicts": ["verdicts"],
    "words.explain": ["_explain_stop", "explain_fault", "explain_words"],
    "words.picture": ["MOST_ROWS"],
}

#: What `given.js` has in their place.
GIVEN = {
    ("inside", "Follower"), ("inside", "played"), ("program", "run_program"), ("reference", "PAGE"), ("reference", "TERMS"),
    ("reference", "_page"), ("show", "Progress"),
}


def lab_modules(folder: Path) -> "dict[str, str]":
    """The modules by their names."""
    roots = [(module, name) for module, names in WANTED.items() for name in names]
    return translated(folder, roots, GIVEN)
