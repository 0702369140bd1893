"""The jobs that keep a plant in a file, for those who try what the file is after a fault."""
import typing

# What begins a line of output that answers no event.
NO_ANSWERS = (b'{"end"', b'{"kept"', b'{"plant"')


class Job(typing.NamedTuple):
    """A job with the file that it keeps, the line that comes first, and what is asked behind each event. Where lines stand
    there already, `groups` says whether they are kept together."""
    name: str
    file: str
    first: str = ""
    question: str = ""
    groups: bool = False

    def input_of(self, lines):
        """What is given so that these events come, and questions between them."""
        return (self.first + "".join(line + self.question for line in lines)).encode()


JOBS = [Job("keep", "pol.journal"),
        Job("operate", "pol.plant", '{"groups":[],"rules":[]}\n', '{"ask":"plant"}\n', True)]


def answers_in(output):
    """How many lines of an output answer an event."""
    return sum(not line.startswith(NO_ANSWERS) for line in output.splitlines())
