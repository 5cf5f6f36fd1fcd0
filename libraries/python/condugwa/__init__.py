"""The laboratory for the Royal McBee LGP-30, from its proved library.

    >>> import condugwa
    >>> condugwa.run_script("put 0050 00000006\\nwords 0050 1\\n").text
    'ok\\n0050 00000006\\n'

Commands and replies are those of docs/FORMATS.md. Bytes that are not UTF-8 text stand in a `str` as Python's
"surrogateescape" has them, so that nothing is lost in either direction.
"""

from condugwa.accounts import Account, Accounts, PutThere, Stored, accounts_of
from condugwa.assembling import Fault, Faults, Listing, assemble
from condugwa.desks import Desk
from condugwa.laboratories import Laboratory, Rule, Source
from condugwa.library import OutOfMemoryError, UnreadError
from condugwa.optima import Gain, Optimum, WordOptimum, optimum_of, word_optimum_of
from condugwa.panels import Panel, words_of
from condugwa.pictures import Drum
from condugwa.profiles import Place, Profile, profile_of
from condugwa.refusals import (
    AtWorkError,
    BadSignError,
    ClockEndError,
    FaultyError,
    FormError,
    FullError,
    MovingError,
    NoHitError,
    NoImageError,
    NoRuleError,
    RefusalError,
    TooFarError,
    TooLongError,
)
from condugwa.runs import Run
from condugwa.scripts import Replies, run_script
from condugwa.tables import accounts_frame
from condugwa.words import Word, word_of, word_value

__version__ = "0.1.0"

__all__ = [
    "Account",
    "Accounts",
    "AtWorkError",
    "BadSignError",
    "ClockEndError",
    "Desk",
    "Drum",
    "Fault",
    "Faults",
    "FaultyError",
    "FormError",
    "FullError",
    "Gain",
    "Laboratory",
    "Listing",
    "MovingError",
    "NoHitError",
    "NoImageError",
    "NoRuleError",
    "Optimum",
    "OutOfMemoryError",
    "Panel",
    "Place",
    "Profile",
    "PutThere",
    "RefusalError",
    "Replies",
    "Rule",
    "Run",
    "Source",
    "Stored",
    "TooFarError",
    "TooLongError",
    "UnreadError",
    "Word",
    "WordOptimum",
    "__version__",
    "accounts_frame",
    "accounts_of",
    "assemble",
    "optimum_of",
    "profile_of",
    "run_script",
    "word_of",
    "word_optimum_of",
    "word_value",
    "words_of",
]
