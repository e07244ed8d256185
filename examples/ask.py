#!/usr/bin/env python3
"""Asks `./arbiter run` one line at a time, by an end mark (docs/EMBEDDING.md, 'Lines and answers').

Comments and blank lines have no answer and must not be asked.
"""
import subprocess

MARK = b"error 26 RootFixed\n"


class Arbiter:
    """The program with a pipe to it, and one from it."""

    def __init__(self, *options: str) -> None:
        self.talk = subprocess.Popen(["./arbiter", "run", *options], stdin=subprocess.PIPE,
                                     stdout=subprocess.PIPE)
        assert self.talk.stdin is not None and self.talk.stdout is not None
        self.given, self.said = self.talk.stdin, self.talk.stdout

    def ask(self, line: str) -> list[str]:
        """The lines of the answer."""
        self.given.write(line.encode() + b"\ndemand . 0\n")
        self.given.flush()
        answer: list[str] = []
        while True:
            said = self.said.readline()
            if said == b"":
                raise EOFError(f"the program ended with status {self.talk.wait()}")
            if answer and said == MARK:
                return answer
            answer.append(said[:-1].decode())

    def close(self) -> int:
        """The exit status."""
        self.talk.communicate()
        return self.talk.returncode


if __name__ == "__main__":
    arbiter = Arbiter("--processors", "2")
    for line in ["mkdir a", "mkdir a", "demand a 30", "plan", "rmdir ."]:
        print(line, "->", arbiter.ask(line))
    print("status", arbiter.close())
