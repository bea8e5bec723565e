"""Runs a notebook's code cells without Jupyter, and keeps what they print and show.

usage: python3 notebook.py NOTEBOOK ..    puts what the cells print now into the notebooks
"""
from __future__ import annotations

import ast
import io
import json
import os
import sys
import tempfile
from contextlib import redirect_stdout
from pathlib import Path
from typing import Any, Dict, List

import support  # noqa: F401


def read(path: Path) -> Dict[str, Any]:
    """A notebook."""
    found: Dict[str, Any] = json.loads(path.read_text(encoding="utf-8"))
    return found


def outputs(notebook: Dict[str, Any]) -> List[List[Dict[str, Any]]]:
    """What each code cell gives, run in order in a folder of its own."""
    names: Dict[str, Any] = {"__name__": "__main__"}
    before = os.getcwd()
    with tempfile.TemporaryDirectory() as room:
        os.chdir(room)
        try:
            return [_output("".join(cell["source"]), names) for cell in notebook["cells"] if cell["cell_type"] == "code"]
        finally:
            os.chdir(before)


def _output(source: str, names: Dict[str, Any]) -> List[Dict[str, Any]]:
    """What one cell prints, and what its last expression shows."""
    parts = ast.parse(source)
    last = parts.body.pop() if parts.body and isinstance(parts.body[-1], ast.Expr) else None
    told = io.StringIO()
    shown: Any = None
    with redirect_stdout(told):
        exec(compile(parts, "cell", "exec"), names)
        if isinstance(last, ast.Expr):
            shown = eval(compile(ast.Expression(last.value), "cell", "eval"), names)
    found: List[Dict[str, Any]] = []
    if told.getvalue():
        found.append({"name": "stdout", "output_type": "stream", "text": told.getvalue().splitlines(keepends=True)})
    if shown is not None:
        data = {"text/plain": repr(shown).splitlines(keepends=True)}
        if hasattr(shown, "_repr_html_"):
            data["text/html"] = shown._repr_html_().splitlines(keepends=True)
        found.append({"data": data, "execution_count": None, "metadata": {}, "output_type": "execute_result"})
    return found


def main() -> None:
    """Writes the outputs."""
    for name in sys.argv[1:]:
        path = Path(name)
        notebook = read(path)
        for cell, found in zip([cell for cell in notebook["cells"] if cell["cell_type"] == "code"], outputs(notebook)):
            cell["outputs"] = found
        path.write_text(json.dumps(notebook, indent=1, ensure_ascii=False) + "\n", encoding="utf-8")


if __name__ == "__main__":
    main()
