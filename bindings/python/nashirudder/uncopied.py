"""What is neither copied nor pickled."""

from typing import NoReturn


class Uncopied:
    """What owns something outside Python: each try to copy or pickle it raises TypeError."""

    def __copy__(self) -> NoReturn:
        raise TypeError(f"{type(self).__name__} is neither copied nor pickled")

    def __deepcopy__(self, _memo: object) -> NoReturn:
        self.__copy__()

    def __reduce__(self) -> NoReturn:
        self.__copy__()
