"""Tests of the thermostat, on a board that runs in pieces."""
import os
import re

import pytest
from mudflatjar import Board, TimeUp, high, low

HERE = os.path.dirname(os.path.abspath(__file__))


def test_says_that_it_is_ready(board: Board) -> None:
    board.serial.expect("ready\r\n", timeout_us=20_000)


def test_button_toggles_and_flashes(board: Board) -> None:
    board.serial.expect("ready")
    board.press("btn1")
    board.run(ms=20)
    board.release("btn1")
    board.run(ms=20)
    board.press("btn1")
    flash = board.pin("uno:13").pulse(1, timeout_us=5_000)
    assert flash == pytest.approx(250, abs=15)
    assert board.report.times_lit("heater") == 1


def test_a_dialogue(board: Board) -> None:
    board.serial.expect("ready\r\n")
    for target in range(100, 1000, 100):
        board.serial.write(f"t{target}\n")
        assert int(board.serial.expect(re.compile(rb"target (\d+)\r\n"), timeout_us=5_000)[1]) == target
    board.serial.write("nonsense\n")
    assert board.serial.line() == "what?"


def test_closed_loop(board: Board) -> None:
    """The sensor follows the heater: a room that warms by 8 and cools by 3 in a millisecond. The controller holds it near 500."""
    board.serial.expect("ready")
    room, history = 300.0, []
    for _ in range(120):
        board.run(ms=1)
        room += 8 if board.pin("uno:9").is_high else -3
        board.set("sensor", round(room))
        history.append(room)
    settled = history[60:]
    assert 480 <= min(settled) and max(settled) <= 520, history
    assert board.report.times_lit("heater") >= 3


def test_heater_answers_the_sensor_in_time(board: Board) -> None:
    """From a jump of the sensor to the pin it takes two conversions at most: 2 x 104 us and the loop around them."""
    board.serial.expect("ready")
    board.run(ms=2)
    assert board.pin("uno:9").is_high
    board.set("sensor", 900)
    began = board.us
    board.until(low("uno:9"), timeout_us=1_000)
    assert board.us - began < 350
    with pytest.raises(TimeUp, match="uno:9 is 1"):
        board.until(high("uno:9"), timeout_us=3_000)


@pytest.mark.parametrize("sensor, heats", [(0, True), (480, True), (520, False), (1023, False)])
def test_cold_and_hot(sensor: int, heats: bool) -> None:
    """One folder, several rooms: the sensor's value is an attribute of the diagram."""
    with Board(HERE, attributes={"sensor": {"value": sensor}}) as board:
        board.serial.expect("ready\r\n")
        board.run(ms=2)
        assert board.pin("uno:9").is_high == heats
        board.serial.write("v\n")
        assert board.serial.line() == str(sensor)


def test_a_pulse_on_pin_2_is_a_press() -> None:
    """A pin is driven from outside, as a generator would, and let go of again."""
    with Board(HERE, inputs=["uno:2"]) as board:
        board.serial.expect("ready")
        board.run(ms=2)
        assert board.pin("uno:9").is_high
        board.drive("uno:2", 0)
        board.until(low("uno:9"), timeout_us=1_000)
        board.drive("uno:2", None)
        board.run(ms=2)
        assert board.pin("uno:9").is_low


@pytest.mark.board(allow=["halt"])
def test_a_wrong_pointer_halts_the_core(board: Board) -> None:
    """Without `allow` this test would fail though each line of it comes true: the core halts."""
    board.serial.expect("ready")
    board.serial.write("x\n")
    board.run(ms=2)
    assert board.report.is_halted and board.report.pc == 0x3800
