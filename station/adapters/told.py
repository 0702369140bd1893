"""What an adapter tells a station. Names and numbers are those of `pol`; a place says what of a module is meant, such
as ("service", "dose") or ("parameter", "dose", "1", "amount")."""
import dataclasses

SERVICE, VARIABLE, PARAMETER = "service", "variable", "parameter"
# How a write ended: carried out by the module; not carried out, for a reason; or nobody knows.
DONE, REFUSED, UNANSWERED = "done", "refused", "unanswered"


@dataclasses.dataclass(frozen=True)
class Back:
    """The module is there from here on. `life` is another text after each start of it; empty where nobody knows."""
    tag: str
    life: str


@dataclasses.dataclass(frozen=True)
class Gone:
    """The module isn't there from here on, until it is back. What is told meanwhile was so before."""
    tag: str
    why: str


@dataclasses.dataclass(frozen=True)
class Report:
    """What a service reports, by the fields of a `report` line, all of one moment."""
    tag: str
    service: str
    fields: dict


@dataclasses.dataclass(frozen=True)
class Value:
    """What a variable shows, as a `variable` line has it."""
    tag: str
    variable: str
    value: object


@dataclasses.dataclass(frozen=True)
class Setting:
    """What a parameter has, in the numbers of a recipe's settings."""
    tag: str
    service: str
    procedure: int
    parameter: str
    value: object


@dataclasses.dataclass(frozen=True)
class Bad:
    """What came of this place is of bad quality or has no form for `pol`: it isn't passed on, and what was told before
    holds no more."""
    tag: str
    place: tuple
    why: str


@dataclasses.dataclass(frozen=True)
class Written:
    """How the write with this number ended; `why` says more where it isn't done."""
    tag: str
    number: int
    outcome: str
    why: str
