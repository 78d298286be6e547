"""level.dat of a world ("Java Edition level format"): the game's version, and where the player stands."""
import math
import os

from chunks import held
from dimensions import NAME, OVERWORLD
from nbt_reader import root_of, text_of
from nbt_writer import COMPOUND, DOUBLE, INT, LIST, TEXT
from refusals import Refusal, unreadable
from unpacking import plain, read_limited


class Level:
    """What level.dat tells; nothing where there is none.

    data_version  the version of the game's data, or None
    player        where the player stands: a cell and the dimension; None where there is no player, as on a server"""

    def __init__(self, folder):
        path = os.path.join(folder, "level.dat")
        self.data_version = self.player = None
        try:
            data = held(root_of(plain(read_limited(path))), b"Data", COMPOUND) or {}
            self.data_version = held(data, b"DataVersion", INT)
            self.player = player_of(held(data, b"Player", COMPOUND) or {})
        except FileNotFoundError:
            pass
        except OSError as fault:
            raise unreadable(path, fault) from None
        except Refusal as why:
            raise why.at("level.dat") from None


def player_of(entries):
    kind, numbers = held(entries, b"Pos", LIST) or (DOUBLE, [])
    if kind != DOUBLE or len(numbers) != 3 or not all(map(math.isfinite, numbers)):
        return None
    kind, told = entries.get(b"Dimension", (None, None))
    dimension = text_of(told) if kind == TEXT else OVERWORLD
    return tuple(map(math.floor, numbers)), dimension if NAME.fullmatch(dimension) else OVERWORLD
