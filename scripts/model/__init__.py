"""An independent model of the product, written from its formats and definitions alone and in another language: the machine,
the formats, the chain, LMS (RFC 8554), replay, the verdict, stores, recording and all commands. It shares no code with the
crates. The comparisons beside it (compare.py and others) build files with it, and hold the lines and bytes that `avm` gives
against its own."""
from .base import *
from .lms import *
from .entries import *
from .machine import *
from .segments import *
from .replay import *
from .replay import run as record
from .verdict import *
from .script import *
from .disk import *
from .journal import *
from .recorder import *
from .rebut import rebut, covers, texts
from .retain import *
from .hss import *
from .lines import *
from .view import *
from .sample import *
from .world import *
from .commands import avm
