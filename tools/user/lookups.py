"""Which rows serve block states: the program tells it, once of each state."""
import answers
from program import OTHERWISE, Program
from refusals import Refusal


def key_of(state):
    name, props = state
    return name, tuple(sorted(props.items()))


class Lookup:
    """The rows of a table, before the shipped ones, and rows of made names, which no table has.

    table  the table
    made   the rows of made names
    told   what the program told so far of states by this table"""

    def __init__(self, table, made=(), told=None):
        self.table, self.made = table, {row.name.decode(): row for row in made}
        self.told = {} if told is None else told

    def with_made(self, rows):
        """The same with more rows of made names."""
        return Lookup(self.table, [*self.made.values(), *rows], self.told)

    def rows_of(self, states):
        """The row of each of these block states, None where none fits. Of all that it wasn't asked for yet the program
        is asked at once."""
        keys = list(map(key_of, states))
        new = [key for key in dict.fromkeys(keys) if key[0] not in self.made and key not in self.told]
        if new:
            self.told.update(zip(new, asked([(name, dict(props)) for name, props in new], self.table)))
        return [self.made[key[0]] if key[0] in self.made else self.told[key] for key in keys]


def asked(states, table):
    """What the program tells of these states."""
    program = Program()
    try:
        return answers.rows(program, states, table)
    except Refusal as why:
        raise why.at(OTHERWISE.format(program.path)) from None
