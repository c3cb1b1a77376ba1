#!/usr/bin/env python3
"""A client of `mudflatjar serve`: presses a button and waits for the LED.  client.py PROGRAM FOLDER"""
import subprocess
import sys


class Board:
    def __init__(self, program: str, folder: str) -> None:
        self.process = subprocess.Popen([program, "serve", folder], stdin=subprocess.PIPE, stdout=subprocess.PIPE)
        self.cycle = 0
        self.answer("")

    def ask(self, request: str) -> tuple[list[str], bytes]:
        """The words and the block of the answer. ValueError: the request is refused."""
        self.process.stdin.write(request.encode() + b"\n")
        self.process.stdin.flush()
        return self.answer(request)

    def answer(self, request: str) -> tuple[list[str], bytes]:
        kind, cycle, count, *words = self.process.stdout.readline().decode().split()
        self.cycle = int(cycle)
        if kind == "no":
            raise ValueError(f"{request}: {count} {' '.join(words)}")
        block = self.process.stdout.read(int(count) + 1)[:-1] if count != "0" else b""
        return words, block


board = Board(*sys.argv[1:3])
board.ask("run 160000")
board.ask("press btn1")
board.ask(f"run {board.cycle + 1600000} edge uno.13")
print("pin 13 is", board.ask("level uno.13")[0][0], "after", board.cycle - 160000, "cycles")
board.ask("quit")
