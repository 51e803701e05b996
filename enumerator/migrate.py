"""The program `migrate`: where to go on when a new sheet takes over (document
02, S-10).

    python3 enumerator/migrate.py OLD NEW
"""

from carry import carry
from commands import print_answer
from given import given_of
from replay import opened


def migrate_lines(old, new):
    """A heading, then for each state of the old sheet's table the state of the
    new one's.  The old sheet's refusal comes first, then the new one's."""
    tables = []
    for text in (old, new):
        refusal, sheet, compiled, _ = opened(text, None)
        if refusal:
            return [["refused", refusal]]
        tables.append(given_of(sheet, compiled))
    answer = carry(*tables, len(tables[0].finals))
    if answer.refusal:
        return [["refused", answer.refusal]]
    return [["old", "new"]] + [list(line) for line in enumerate(answer.list)]


def migrate(old, new):
    """The bytes that `migrate` prints for the bytes of two sheets."""
    return "".join(" ".join(map(str, line)) + "\n"
                   for line in migrate_lines(old, new)).encode()


if __name__ == "__main__":
    print_answer(__doc__, migrate, ("old", "new"))
