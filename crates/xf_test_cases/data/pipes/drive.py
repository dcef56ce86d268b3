#!/usr/bin/env python3
"""Drives the program over two pipes: an event goes in as a line, its reply comes out.

    examples/pipes/drive.py PROGRAM

PROGRAM is the built program, crates/xforms/out/xforms once `run --prove` has made it. What this prints stands in the file `printed` beside it.
"""
import json, os, pathlib, shutil, subprocess, sys, tempfile


class Refused(Exception):
    """An event was refused, and the state is as before. The text is the line, as `no E4 NoSuchTarget`."""


class Ended(Exception):
    """The program has ended. The text is its last line, if it wrote one, and the number that it ended with."""


class Session:
    """A form at work, in a folder that holds `form.json` and the folder `store`."""

    def __init__(self, program, folder):
        self.program = subprocess.Popen([os.path.abspath(program), "try"], cwd=folder, encoding="utf-8", stdin=subprocess.PIPE, stdout=subprocess.PIPE)

    def send(self, *event):
        """Sends an event. Gives the notes that it tells; those of the start come with the first."""
        *notes, answer = self.exchange(event, lambda line: line.startswith(("ok ", "no ")))
        if answer.startswith("no "):
            raise Refused(answer)
        return notes

    def state(self):
        """The lines of the state."""
        return self.exchange(["show"], lambda line: line == "end")

    def exchange(self, event, is_last):
        """Sends a line and reads its reply: the program writes it out before it reads the next line."""
        try:
            self.program.stdin.write(json.dumps(event) + "\n")
            self.program.stdin.flush()
        except BrokenPipeError:
            pass  # it has ended, and what it wrote says why
        lines = []
        for line in self.program.stdout:
            lines.append(line.rstrip("\n"))
            if is_last(lines[-1]):
                return lines
        raise Ended(f"{''.join(lines[-1:])} ({self.program.wait()})")

    def end(self):
        """Ends the events, and gives the number that the program ends with: 0 where all lines were answered."""
        self.program.stdin.close()
        return self.program.wait()


def main(program):
    with tempfile.TemporaryDirectory() as name:
        folder = pathlib.Path(name)
        shutil.copytree(pathlib.Path(__file__).parent.parent / "shop", folder, dirs_exist_ok=True)
        session = Session(program, folder)
        for event in (["activate", "go", []], ["set", "item", [], "tea"], ["set", "colour", [], "red"], ["set", "count", [], "3"], ["activate", "go", []]):
            try:
                print(*event, "->", *session.send(*event), sep=" | ")
            except Refused as why:
                print(*event, "->", why, sep=" | ")
        print(*[line for line in session.state() if line.startswith("control total")])
        print("ended with", session.end())
        print((folder / "store" / "order.json").read_text(encoding="utf-8"))
        (folder / "form.json").write_text('["f"]', encoding="utf-8")
        try:
            Session(program, folder).send("send", "order")
        except Ended as why:
            print("ended:", why)


if __name__ == "__main__":
    sys.exit(main(*sys.argv[1:]))
