"""Rules read wrongly: what stands in the place of a name of `outcome_model`, so that random_trials.py can show that it would find it."""
from oracle import outcome_model
from oracle.mail import LETTERS
from oracle.outcome_model import Ends

IS_NEW, COPY_OF, MARK = outcome_model.is_new, outcome_model.copy_of, outcome_model.mark
FLAGS, HIGHEST, ENTRY = Ends.flags, Ends.highest, Ends.entry


def new_beside_half_entries(world, side, message):
    return IS_NEW(dict(world, entries=[entry for entry in world["entries"] if all(entry[:2])]), side, message)


def new_though_deleted(world, side, message):
    return IS_NEW(dict(world, expunge=()), side, message)


def far_flags_win(source, target, recorded):
    return list(source), [letter for letter in LETTERS if letter not in source]


def highest_of_all(ends, way):
    return max([HIGHEST(ends, way), *(ends.far if way == "Pull" else ends.near)])


def highest_before(ends, way):
    return ends.world["max_pulled" if way == "Pull" else "max_pushed"]


def never_dropped(ends, *entry):
    return ENTRY(ends, *entry) or entry


WRONG = {
    "the survivor of a half entry is new": (outcome_model, "is_new", new_beside_half_entries),
    "a deleted message on a covered side is new": (outcome_model, "is_new", new_though_deleted),
    "an unfit message is new": (outcome_model, "is_fit", lambda side, data: True),
    "mark lines of the source are kept": (outcome_model, "content", lambda data: data.replace(b"\r\n", b"\n")),
    "a far copy ends its lines in LF": (outcome_model, "copy_of", lambda data, number, side: COPY_OF(data, number, "near")),
    "all copies have the first mark": (outcome_model, "mark", lambda k: MARK(1)),
    "gone leaves the flags": (Ends, "flags", lambda ends, side, uid: FLAGS(ends, side, uid).replace("T", "")),
    "recorded flags stay": (outcome_model, "recorded_after", lambda cells, far, near, recorded: recorded),
    "flags changed on both sides are taken over": (outcome_model, "changed_bits", far_flags_win),
    "the highest UIDs stay": (Ends, "highest", highest_before),
    "the highest UIDs rise without New": (Ends, "highest", highest_of_all),
    "an entry is never dropped": (Ends, "entry", never_dropped),
}
