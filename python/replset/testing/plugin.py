"""A plugin of pytest. A test that takes `replset_set` gets a set of its own; where it fails, the run is told
and drawn.

    @pytest.mark.replset(nodes=5)
    def test_a_write_survives(replset_set): ...
"""
from __future__ import annotations

import re
from pathlib import Path
from typing import Any, Iterator

import pytest

from ..faults import NoLibrary
from ..sets import Set

#: Under this name a test keeps its set.
_KEPT = "_replset_set"


def pytest_addoption(parser: Any) -> None:
    """Where pictures go."""
    parser.getgroup("replset").addoption(
        "--replset-pictures", metavar="DIR", default="replset-pictures", help="where pictures of failing tests' sets go"
    )


def pytest_configure(config: Any) -> None:
    """Tells of the mark."""
    config.addinivalue_line("markers", "replset(nodes, voters, members): the sizes of the test's replica set")


@pytest.fixture
def replset_set(request: Any) -> Iterator[Set]:
    """A replica set for this test alone, of three nodes where it has no mark."""
    mark = request.node.get_closest_marker("replset")
    try:
        made = Set(*mark.args, **mark.kwargs) if mark else Set()
    except NoLibrary as fault:
        pytest.skip(str(fault))
    setattr(request.node, _KEPT, made)
    yield made
    made.close()


@pytest.hookimpl(hookwrapper=True)
def pytest_runtest_makereport(item: Any, call: Any) -> Iterator[None]:
    """Tells and draws the run of a failing test."""
    outcome: Any = yield
    report = outcome.get_result()
    made = getattr(item, _KEPT, None)
    if report.when == "call" and report.failed and made is not None:
        report.sections.append(("replset: the run", f"{made.told()}\n{_draw(item, made)}"))


def _draw(item: Any, made: Set) -> str:
    folder = Path(item.config.getoption("--replset-pictures"))
    name = folder / (re.sub(r"[^\w.-]+", "_", item.nodeid).strip("_") + ".html")
    try:
        folder.mkdir(parents=True, exist_ok=True)
        made.picture(name, item.name)
    except OSError as fault:
        return f"no picture: {fault}"
    return f"picture: {name}"
