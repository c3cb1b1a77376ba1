"""The fixtures `board` and `dut` for pytest:  @pytest.mark.board("folder", inputs=["uno:7"], allow=["CLKPR"])

The mark takes what Board takes. A test fails too if its steps come true and its board halts, or uses what is not simulated. What a
failed test leaves is kept in pytest's temporary folder, or where --board-keep says."""
from __future__ import annotations

import contextlib
import os
import re
from collections.abc import Generator, Iterator
from typing import Any

import pytest

from .board import Board
from .dut import Dut

BOARD = pytest.StashKey[Board]()
TEXT_MOST = 80  # letters of a folder's name


def pytest_addoption(parser: pytest.Parser) -> None:
    """The options, and the keys of pytest.ini."""
    group = parser.getgroup("mudflatjar", "simulated boards")
    group.addoption(
        "--board-keep",
        metavar="FOLDER",
        help="keeps there what the boards of failed tests leave: project, script, wave, bytes, report, requests",
    )
    group.addoption("--board-program", metavar="FILE", help="the program that runs the boards")
    parser.addini("board_folder", "the project's folder of tests that name none, from the test's folder", default="")
    parser.addini("board_keep", "as --board-keep, from the folder of pytest.ini", default="")


def pytest_configure(config: pytest.Config) -> None:
    """Says what the mark is, and tests the options."""
    check_keep(config)
    config.addinivalue_line(
        "markers",
        "board(folder, **words): the project's folder of a test, from the test's own, and what mudflatjar.Board takes",
    )


def check_keep(config: pytest.Config) -> None:
    """pytest looks for its ini file before it knows a plugin's options. So in `--board-keep FOLDER` it takes a FOLDER that is there,
    and outside of the tests, for one of tests, and passes the ini file over. UsageError: it did."""
    keep, here = config.getoption("--board-keep"), config.invocation_params.dir
    is_apart = keep and keep in config.invocation_params.args and os.path.exists(keep)
    if is_apart and config.inipath is None and any((it / "pytest.ini").exists() for it in (here, *here.parents)):
        raise pytest.UsageError(
            f"pytest takes {keep} for a folder of tests, and passes over pytest.ini: write --board-keep={keep}"
        )


def words_of(item: pytest.Item) -> tuple[str, dict[str, Any]]:
    """(the folder, what else Board is given) of a test, by its marks: nearer ones win."""
    words: dict[str, Any] = {}
    marks = list(item.iter_markers("board"))
    for mark in reversed(marks):
        words.update(mark.kwargs)
    named = next((mark.args[0] for mark in marks if mark.args), None) or item.config.getini("board_folder")
    words.setdefault("program_path", item.config.getoption("--board-program"))
    return os.path.join(os.path.dirname(str(item.path)), str(named)), words


def place_of(item: pytest.Item) -> str:
    """The folder in which what a failed test leaves is kept."""
    keep = item.config.getoption("--board-keep")
    if keep:
        top = os.path.join(str(item.config.invocation_params.dir), keep)
    elif item.config.getini("board_keep"):
        top = os.path.join(str(item.config.rootpath), item.config.getini("board_keep"))
    else:
        factory: pytest.TempPathFactory = item.config._tmp_path_factory  # type: ignore[attr-defined]
        top = str(factory.getbasetemp() / "boards")
    return os.path.join(top, re.sub(r"[^A-Za-z0-9._-]+", "-", item.nodeid)[-TEXT_MOST:])


@pytest.fixture
def board(request: pytest.FixtureRequest) -> Iterator[Board]:
    """A board of its own for each test, in cycle 0."""
    folder, words = words_of(request.node)
    with contextlib.closing(Board(folder, **words)) as it:
        request.node.stash[BOARD] = it
        yield it


@pytest.fixture
def dut(board: Board) -> Dut:
    """The board of a test by the names of pytest-embedded: expect, expect_exact, write."""
    return Dut(board)


@pytest.hookimpl(trylast=True)  # type: ignore[misc]
def pytest_runtest_call(item: pytest.Item) -> None:
    """After a test that passed: its board is asked whether the core halted, a chip died, or something was left out."""
    it = item.stash.get(BOARD, None)
    found = it.verdict() if it is not None and it.is_open else None
    if found and found.fails:
        said = "\n".join([*found.fails, found.how]).rstrip()
        pytest.fail(f"the test passed, but not all of the board ran:\n{said}", pytrace=False)


@pytest.hookimpl(hookwrapper=True)  # type: ignore[misc]
def pytest_runtest_makereport(item: pytest.Item, call: pytest.CallInfo[None]) -> Generator[None, Any, None]:
    """A failed test's report gets a section with how its board is, and what it leaves is kept."""
    outcome = yield
    report = outcome.get_result()
    it = item.stash.get(BOARD, None)
    if report.when != "call" or not report.failed or it is None or not it.is_open:
        return
    place = place_of(item)
    try:
        it.kept(place)
        text = it.evidence(place)
    except Exception as fault:  # the report of the test must come whatever became of its board
        text = f"the evidence could not be had: {fault}"
    report.sections.append(("board", text))
