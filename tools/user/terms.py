"""What a run goes by: the rule and the table, by the game that saved the cave and by the words of the command line."""
import planning
import tables
import unknowns
from folders import put_table
from lookups import Lookup
from refusals import Refusal
from saying import counted, note
from versions import LATEST, release, release_of


def rule_for(told, data_version):
    """The rule that is told, or else the one of the game that saved the cave."""
    if told is not None:
        return told
    if data_version is not None and data_version < release("1.18").data_version:
        saved = release_of(data_version)
        note(f"saved by {saved.name if saved else 'a version before 1.16'}, so planned by --rule 1.17")
        return "1.17"
    return "1.18"


def terms_for(told, version, own):
    """What the run goes by, for the version of the game's data that saved the cave, or None."""
    if tables.is_later(version):
        note(f"data version {version} is later than {LATEST.name}: a block that is new is refused by its name")
    table = tables.chosen(version, own, told.steady)
    return planning.Terms(told, table, Lookup(table), rule_for(told.rule, version))


def refuse_unknown(names, place, own):
    """Refuses blocks without a row, and leaves a table that has them at the folder's place."""
    listed = f"no table has {counted(len(names), 'block', 'blocks')} of the cave: {', '.join(names)}"
    if not any(map(unknowns.KNOWN_NAME.fullmatch, names)):
        raise Refusal(listed)
    path = put_table(place, unknowns.table_for(names, own and own.data))
    note(listed)
    raise Refusal(f"{path} has a row for each, as full and solid: look them over, then add --table {path}")
