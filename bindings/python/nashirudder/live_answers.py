"""What a fleet in real time answers."""

import abc
from typing import TYPE_CHECKING, List

from .answers import chapter_in, errands_in, hello_in, look_in, standings_in
from .arrays import as_cells
from .closing import Closing
from .process import Program
from .ranges import whole_number
from .records import Chapter, Hello, Look, OpenErrand, Standing

if TYPE_CHECKING:
    from .arrays import Cells


class LiveAnswers(Closing):
    """What there is to ask of a fleet that the program `fleet live` keeps."""

    @property
    @abc.abstractmethod
    def _program(self) -> Program:
        """The program."""

    def look(self) -> Look:
        """How the fleet stands. It changes nothing."""
        return self._program.reply("look", look_in)

    def hello(self) -> Hello:
        """What the fleet is. It changes nothing."""
        return self._program.reply("hello", hello_in)

    def standings(self) -> List[Standing]:
        """How each robot stands, by the robot's number. It changes nothing."""
        return standings_in(self._program.ask("robots")[0])

    def open_errands(self, client: int = 0) -> List[OpenErrand]:
        """The client's errands that are accepted, and neither done nor withdrawn, once what was posted is judged as far
        as there is room: by robot, and then by place in its queue. Raises Refused with "no-client".
        """
        return errands_in(self._program.ask(f"open {whole_number('client', client)}")[0])

    @property
    def cells(self) -> List[int]:
        """Where the robots stand, by the robot's number: a list."""
        return self.look().cells

    def placement(self) -> "Cells":
        """What `cells` has, as an array of `numpy.uint32` with one item for each robot; as a list if NumPy is not
        there.
        """
        return as_cells(self.cells)

    def chapter(self) -> Chapter:
        """Ends the present chapter, which is written if `traces` was given, and begins the next. Raises Refused with
        "book-spent" if it is the last.
        """
        return self._program.reply("chapter", chapter_in)
