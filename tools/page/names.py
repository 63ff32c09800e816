"""The names by which candidates and contests are shown: a file with the columns id and name, or contest, id and name."""
import re

import called
from files import told


class Names:
    """The name of each candidate on the page. A candidate without a name is shown by the id."""

    def __init__(self, file=None):
        self.path = file and file.path
        try:
            self.all = called.Called(file.path, file.data, must_have_head=True) if file else called.Nobody()
        except called.BadNames as bad:
            raise told(str(bad)) from None
        self.by_id = {}

    def contest(self, contest):
        return self.all.contest(contest)

    def of(self, c):
        return self.by_id.get(c, c)

    def see(self, ids, contest):
        """Makes the names those of this contest from here on. Each must be the name of a candidate, and no two candidates may be shown alike."""
        try:
            self.by_id = self.all.of(contest, ids)
        except called.BadNames as bad:
            raise told(str(bad)) from None
        if self.path and not self.by_id:
            raise told(f"{self.path} has no names for the candidates of contest {contest}")
        for c in self.by_id:
            if c not in ids:
                raise told(f"{self.path} has a name for {c}, who isn't a candidate")

    def in_line(self, line, ids):
        """A line of a check, with names instead of ids."""
        one = "|".join(map(re.escape, sorted(ids, key=len, reverse=True)))

        def all_of(text):
            return ",".join(map(self.of, text.split(",")))

        claim = re.fullmatch(rf"(.*NE[BN] )({one}) ({one})(?: \{{(.*)\}})?( margin .*)", line)
        if claim:
            rest = f" {{{all_of(claim[4])}}}" if claim[4] else ""
            return f"{claim[1]}{self.of(claim[2])} {self.of(claim[3])}{rest}{claim[5]}"
        told = re.fullmatch("(no: winner is |no: order |candidate )(.*?)( stands)?", line)
        return told[1] + all_of(told[2]) + (told[3] or "") if told else line
