"""What a script's session is: its items, its states, its base, as the program tells them.

A companion that shows a space runs the whole script first, and then asks the program for what it
shows. The script finds the files of its folder, but by links: what it saves is not kept.

  with Course(program, script) as course:
      course.items              the names of the items, in their order
      course.cursors(128)       the cursors of the states, or None where they are more than 128
      course.states(128)        the states as (cursor, names), or None
      course.base()             the base in the same form
      course.ask("relation")    the lines of any reply
"""
import contextlib
import tempfile
from pathlib import Path

from companion import (Session, cursor_of, demand, marks_of, names_in, read_text, refusal_of, tell,
                       words_of)


class Course(Session):
    """The program after it has answered a script, ready for more lines."""

    def __init__(self, program, script):
        text = read_text(script)
        with contextlib.ExitStack() as stack:
            self.folder = Path(stack.enter_context(tempfile.TemporaryDirectory()))
            self.link_files(Path(script).absolute().parent)
            super().__init__(program, self.folder)
            stack.callback(super().close)
            self.answer(script, text)
            self.items = names_in(self.ask("states 1", f"{script} has no session")[0])
            self.ends = stack.pop_all()

    def close(self):
        """Ends the program, and takes the folder of its links away."""
        self.ends.close()

    def link_files(self, folder):
        """Links the files of a folder. A `save` of the script replaces a link, and not the file."""
        for file in folder.iterdir():
            if file.is_file():
                (self.folder / file.name).symlink_to(file)

    def answer(self, script, text):
        """Says each line of the script. One that is refused is told, and changes nothing."""
        for number, line in enumerate(text.split("\n"), 1):
            reply = self.say(line)
            if refusal_of(reply):
                tell(f"note: line {number} of {script}: {refusal_of(reply)}")
            elif reply:
                self.follow(words_of(line), reply)

    def follow(self, words, reply):
        """For a companion that has to know what an accepted line changed."""

    def ask(self, line, doing=None):
        return demand(self.say(line), doing or line)

    def states(self, most):
        """All states, in the order of the program; None where there are more than `most`."""
        found = self.cursors(most)
        return None if found is None else [(cursor, self.names(cursor)) for cursor in found]

    def names(self, cursor):
        """The names of the set of a cursor."""
        marks = marks_of(cursor, len(self.items))
        return [item for item, mark in zip(self.items, marks) if mark == "1"]

    def base(self):
        """The sets of the base, in the order of the program."""
        return [(cursor_of(line), names_in(line)) for line in self.ask("base")[:-1]]

    def fringes(self, names):
        """The inner and the outer fringe of a state."""
        reply = self.ask(" ".join(["fringes", *names]), "{" + " ".join(names) + "}")[0]
        inner, outer = reply[len("fringes"):].split("|")
        return inner.split(), outer.split()

    def state_of_pupil(self, name):
        """The heaviest state of a pupil, which the report tells."""
        return names_in(self.ask(f"report {name}", f"pupil {name}")[0])
