"""How a run can end before its work is done."""


class Fault(Exception):
    """Why it ends with status 2: what stands behind `fault: `."""


class Misuse(Exception):
    """What is wrong with its words."""


class Stopped(Exception):
    """A signal came."""


class Ended(Exception):
    """All is said: the status with which it ends."""


class Help(Exception):
    """Its words ask for help."""
