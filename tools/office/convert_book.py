"""What a conversion writes: the records, which wait on the disk until all are read, and the names of candidates."""
import collections
import hashlib
import itertools
import tempfile

import convert_ids
from alike import told_apart
from convert_export import PAIRS, PLURALITY, RANKED, refused, WRITE_IN
from convert_rules import choice_of, ranking_of
from limits import MOST_CONTESTS, MOST_FILE_BYTES, MOST_LISTED, MOST_RECORDS
from records import text_of

WRITE_INS = "Write-in"
MOST_FILES = 20  # up to this many, the account lists the number of cards file by file
FEWER = "convert fewer contests at once: --contest"
RANKS = "--ranks says how many ranks a ballot has"

# A contest of its own for a winner and a loser of a contest: its id, both candidates' ids, and by how many votes the winner is ahead.
Pair = collections.namedtuple("Pair", "id winner loser margin places")


class Book:
    def __init__(self, contests, rules, most_rank, made=RANKED, without=(), seats=None):
        self.contests, self.rules, self.most_rank, self.made, self.seats = contests, rules, most_rank, made, seats
        self.places = {contest.key: number for number, contest in enumerate(contests)}
        self.counts = [collections.Counter() for _ in contests]
        self.ranked = [set() for _ in contests]
        self.votes = [collections.Counter() for _ in contests]  # of each candidate, if candidates aren't ranked
        self.highest = [(0, None)] * len(contests)  # for contests whose candidates are found along the way
        self.files, self.cards, self.read, self.last = 0, 0, collections.Counter(), None
        self.stood, self.records, self.unplaced = set(), 0, 0
        self.without, self.pairs = list(dict.fromkeys(without)), {}
        self.waiting = tempfile.TemporaryFile()

    def add(self, card):
        self.count(str(card.place.path))
        if not card.votes:
            return
        convert_ids.see_card(card)
        digest = hashlib.blake2b(card.id.encode(), digest_size=16).digest()
        if digest in self.stood:
            raise refused(card.place, f"a second card has the id {card.id}")
        self.stood.add(digest)
        self.unplaced += not convert_ids.is_in_a_batch(card.id)
        for vote in card.votes:
            self.add_vote(card, vote)

    def count(self, path):
        """Counts a card. The cards come file by file, and there may be a file for each card, so only the first files have counts of their own."""
        self.files += path != self.last
        self.last, self.cards = path, self.cards + 1
        if self.files <= MOST_FILES:
            self.read[path] += 1

    def add_vote(self, card, vote):
        place = self.places[vote.contest.key]
        counts = self.counts[place]
        counts["records"] += 1
        counts["marks that aren't taken"] += vote.uncounted
        counts["nothing marked"] += not vote.marks
        if self.made == RANKED:
            self.see_ranks(card, vote, place)
            ranking = ranking_of(vote.marks, self.rules, counts)
        else:
            ranking = choice_of(vote.marks, self.seats_of(vote.contest, card), self.rules, counts)
        if self.without:
            ranking = [each for each in ranking if not self.is_out(vote.contest, each)]
        counts["without a preference"] += not ranking
        self.ranked[place].update(ranking)
        self.votes[place].update(ranking)
        self.records += 1
        if self.records > MOST_RECORDS:
            raise refused(card.place, self.too_many(counts["records"]))
        self.waiting.write(f"{place}\t{card.id}\t{' '.join(map(str, ranking))}\n".encode())

    def seats_of(self, contest, card):
        seats = self.seats or (1 if self.made == PLURALITY else contest.seats)
        if seats is None:
            raise refused(card.place.at(f"contest {contest.key}"), "the export doesn't say how many the contest elects: --seats says it")
        return seats

    def is_out(self, contest, choice):
        """Whether a candidate withdrew. The write-ins count as withdrawn if one of them is named."""
        named = [each for each in contest.candidates if each.is_write_in] if choice == WRITE_IN else [contest.candidates[choice]]
        return any(each.key in self.without or each.name in self.without for each in named)

    def too_many(self, of_contest):
        if of_contest > MOST_RECORDS:
            return f"is record {of_contest} of one contest, and no .raire file has more than {MOST_RECORDS}: this contest is too large for the program"
        return f"is record {MOST_RECORDS + 1}, and a .raire file has at most {MOST_RECORDS}; {FEWER}"

    def see_ranks(self, card, vote, place):
        for rank in vote.marks:
            limit = self.limit(vote.contest)
            if not 1 <= rank <= limit:
                why = "there are" if self.most_rank is None else "--ranks says"
                raise refused(card.place.at(f"contest {vote.contest.key}"), f"a mark has rank {rank}, and {why} {limit}; {RANKS}")
            if rank > self.highest[place][0]:
                self.highest[place] = rank, card.place

    def limit(self, contest):
        """The highest rank that a mark may have: what --ranks says, or what the export says but at most the number of candidates."""
        if self.most_rank is not None:
            return self.most_rank
        if contest.is_open:
            return MOST_LISTED
        return min(contest.most_rank or MOST_LISTED, len(contest.candidates))

    def first_id(self):
        """The id of the first card that has a record."""
        self.waiting.seek(0)
        return self.waiting.readline().decode().split("\t")[1]

    # ---- after all is read

    def close(self, asked, path):
        """Finds the contests that have records, each with its ids. After this, only a text that is too long is refused."""
        for contest, counts, (rank, place) in zip(self.contests, self.counts, self.highest):
            if asked and not counts["records"]:
                raise refused(path, f"no card has the contest {contest}")
            if rank > (self.most_rank or len(contest.candidates)):
                here = place.at(f"contest {contest.key}")
                raise refused(here, f"a mark has rank {rank}, and there are {len(contest.candidates)} candidates; {RANKS}")
        self.see_without(path)
        self.listed = {number: self.candidates_of(number, path) for number, counts in enumerate(self.counts) if counts["records"]}
        self.kept = [number for number, listed in self.listed.items() if listed]
        nobody = [str(self.contests[number]) for number, listed in self.listed.items() if not listed]
        if nobody and (asked or not self.kept):
            raise refused(path, f"contest {nobody[0]} has no candidates: no card ranks anybody")
        if not self.kept:
            raise refused(path, "no card has any of the contests that are converted")
        self.ids = dict(zip(self.kept, convert_ids.ids_of([self.contests[number].key for number in self.kept], "contest")))
        if self.made == PAIRS:
            self.make_pairs(path)
        if len(self.names_of_contests()) > MOST_CONTESTS:
            raise refused(path, f"{len(self.names_of_contests())} contests have records, and a .raire file has at most {MOST_CONTESTS}; {FEWER}")

    def see_without(self, path):
        """Checks that each candidate who withdrew is in some contest."""
        found = {word for number in range(len(self.contests)) for each in self.out_of(number) for word in self.without if word in (each.key, each.name)}
        for word in self.without:
            if word not in found:
                listed = "; ".join(each.name for contest in self.contests for each in contest.candidates)
                raise refused(path, f"--without names {word}, who isn't a candidate; there are: {listed}")

    def out_of(self, number):
        """The candidates of a contest who withdrew."""
        return [each for each in self.contests[number].candidates if each.key in self.without or each.name in self.without]

    def candidates_of(self, number, path):
        """The id and the name of each candidate that is written, by its number. All write-ins are one candidate, which comes last."""
        contest, ranked = self.contests[number], self.ranked[number]
        out = self.out_of(number)
        shown = [place for place, each in enumerate(contest.candidates) if self.is_shown(each, place in ranked) and each not in out]
        if contest.is_open:
            shown.sort(key=lambda place: contest.candidates[place].name)
        pairs = [(place, contest.candidates[place].key, contest.candidates[place].name) for place in shown]
        write_ins = [each for each in contest.candidates if each.is_write_in and each not in out]
        if write_ins and self.rules.write_ins == "merge":
            merged = (WRITE_IN, write_ins[0].key, write_ins[0].name if len(write_ins) == 1 else WRITE_INS)
            behind = contest.candidates.index(write_ins[0]) if contest.keeps_order else len(contest.candidates)
            pairs.insert(sum(place < behind for place in shown), merged)
        if len(pairs) > MOST_LISTED:
            raise refused(path, f"contest {contest} has {len(pairs)} candidates, and a .raire file has at most {MOST_LISTED}")
        ids = convert_ids.ids_of([key for _, key, _ in pairs], "candidate")
        names = told_apart([(each, name) for each, (_, _, name) in zip(ids, pairs)])
        return {place: both for (place, _, _), both in zip(pairs, zip(ids, names))}

    @staticmethod
    def is_shown(candidate, is_ranked):
        return not candidate.is_write_in and (not candidate.is_disabled or is_ranked)

    def written(self):
        """The number of records that are written."""
        return sum(self.counts[number]["records"] * len(self.pairs.get(number, [None])) for number in self.kept)

    # ---- contests of several seats, by pairs

    def make_pairs(self, path):
        """Makes a contest for each winner and each loser of a contest. The records must decide who won."""
        for number in self.kept:
            contest, listed, votes = self.contests[number], self.listed[number], self.votes[number]
            order = sorted(listed, key=lambda place: -votes[place])
            seats = self.seats or contest.seats
            if len(order) <= seats:
                raise refused(path, f"contest {contest} elects {seats}, and has {len(order)} candidates: there is no loser, so no pair")
            if votes[order[seats - 1]] == votes[order[seats]]:
                tied = "; ".join(listed[place][1] for place in order if votes[place] == votes[order[seats]])
                raise refused(path, f"contest {contest} elects {seats}, and these share the last seat with {votes[order[seats]]} votes: {tied}")
            self.pairs[number] = [
                Pair(self.pair_id(number, w, l), listed[w][0], listed[l][0], votes[w] - votes[l], (w, l))
                for w, l in itertools.product(order[:seats], order[seats:])
            ]
        ids = self.names_of_contests()
        if len(set(ids)) < len(ids):
            raise refused(path, f"two pairs have one id: {FEWER}")
        if self.written() > MOST_RECORDS:
            raise refused(path, f"{self.written()} records of pairs would be written, and a .raire file has at most {MOST_RECORDS}; {FEWER}")

    def pair_id(self, number, winner, loser):
        """An id such as `Board: Ash over Elm`, or one with the candidates' numbers if that is too long for an id."""
        listed, name = self.listed[number], self.ids[number]
        wanted = f"{name}: {listed[winner][0]} over {listed[loser][0]}"
        return wanted if convert_ids.is_id(wanted) else f"{name[:40].strip()}: {winner + 1} over {loser + 1}"

    def names_of_contests(self):
        """The ids of the contests that are written."""
        return [pair.id for number in self.kept for pair in self.pairs.get(number, [])] or [self.ids[number] for number in self.kept]

    # ---- texts

    def heads(self):
        """The id of each contest that is written, and the ids of its candidates."""
        for number in self.kept:
            if number in self.pairs:
                yield from ((pair.id, [pair.winner, pair.loser]) for pair in self.pairs[number])
            else:
                yield self.ids[number], [each for each, _ in self.listed[number].values()]

    def rows(self):
        """The contest, the card and the candidates' ids of each record that is written."""
        self.waiting.seek(0)
        for line in self.waiting:
            place, card, ranking = line.decode().rstrip("\n").split("\t")
            number, ranked = int(place), [int(each) for each in ranking.split()]
            if number in self.pairs:
                yield from ((pair.id, card, self.chosen_of(number, pair, ranked)) for pair in self.pairs[number])
            elif number in self.ids:
                yield self.ids[number], card, [self.listed[number][each][0] for each in ranked if each in self.listed[number]]

    def chosen_of(self, number, pair, chosen):
        """The one of a pair who is chosen; nobody if both or neither are chosen."""
        both = [place for place in pair.places if place in chosen]
        return [self.listed[number][both[0]][0]] if len(both) == 1 else []

    def ballots(self, path):
        """The text of the .raire file, as a file of its own."""
        made = tempfile.TemporaryFile()
        heads = list(self.heads())
        made.write(f"{len(heads)}\n".encode())
        for contest, ids in heads:
            made.write((",".join(["Contest", contest, str(len(ids)), *ids]) + "\n").encode())
        for contest, card, ids in self.rows():
            made.write((",".join([contest, card, *ids]) + "\n").encode())
        if made.tell() > MOST_FILE_BYTES:
            raise refused(path, f"the .raire file would have {made.tell()} bytes, and at most {MOST_FILE_BYTES} are read; {FEWER}")
        made.seek(0)
        return made

    def seen(self, missing, has_contests):
        """The text of a seen file: the marks of each card that count, and the cards that weren't found."""
        made = tempfile.TemporaryFile()
        for contest, card, ids in self.rows():
            made.write((",".join([card, *[contest] * has_contests, "ballot", *ids]) + "\n").encode())
        for card, contest in missing:
            made.write((",".join([card, *[contest] * has_contests, "missing"]) + "\n").encode())
        made.seek(0)
        return made

    def seen_of_pairs(self, missing, pairs):
        """The same if each card is read for pairs of candidates: a record for each pair, with the one of the two who is chosen."""
        made = tempfile.TemporaryFile()
        for _, card, ids in self.rows():
            for pair, both in pairs.items():
                chosen = [each for each in ids if each in both]
                made.write((",".join([card, pair, "ballot", *chosen * (len(chosen) == 1)]) + "\n").encode())
        for card, _ in missing:
            made.write("".join(f"{card},{pair},missing\n" for pair in pairs).encode())
        made.seek(0)
        return made

    def names(self):
        """The names of contests and candidates, as comma-separated text."""
        rows = [["contest", "id", "name"]]
        for number in self.kept:
            name, listed = self.contests[number].name, self.listed[number]
            for pair in self.pairs.get(number, []):
                both = [listed[place] for place in pair.places]
                rows.append([pair.id, "", f"{name}: {both[0][1]} over {both[1][1]}"])
                rows += [[pair.id, *each] for each in both]
            rows += [[self.ids[number], "", name]] * (name != self.ids[number])
            rows += [[self.ids[number], *each] for each in listed.values()]
        return text_of(rows)
