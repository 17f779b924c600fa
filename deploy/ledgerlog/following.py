"""What a replica does: it answers the records of the log in order, votes on their lines, and has a second run of the program save now and
then."""

import os
import sys
import time
from typing import Callable, Dict, List, NamedTuple, Optional, Set, Tuple, TypeVar

from .chains import START, OwnChain, Point
from .comparing import Comparing, shown
from .errors import Behind, Differs, Full, GoesBack, NeedsPerson, NoLog, OtherHistory, ProgramEnded, RulesChanged, Unreachable
from .fetching import Fetching, say
from .final import Final
from .keys import AT, LINES, PROTOCOL as PROTOCOL_KEY, SAVED
from .log import Log, Read
from .program import Program, identity, skipped_line
from .saves import Save, SavedVote, Saves, saved_vote_in, vote_on
from .saving import MOST_PATIENCE, REST, Base, SecondRun, common_number
from .settings import ASKED, PROTOCOL, Settings
from .status import Asked, LogValues, Status
from .votes import Vote, Votes, form_of, votes_in
from .voting import Voting
from .written import Taken

# For so long at most is waited for a record before it's looked again whether the replica is to stop or is asked something.
WAIT_SECONDS = 0.5
LEAST_SECONDS = 0.01
# A log to which nothing came for so long is at rest: all replicas are at its last record.
IDLE_SECONDS = 1.0
FULL_SECONDS = 5.0
# So often the values of the log are read that the metrics tell.
LOOK_SECONDS = 15.0
# A program that is killed is started again, later and later, and so often without getting any further.
MOST_RESTARTS = 8
FIRST_PAUSE, MOST_PAUSE = 0.25, 30.0
# The status of a program that doesn't load a ledger, and what one says that can't read it.
LOAD_REFUSED, READ_FAULT = 3, "fault: read"
Answer = TypeVar("Answer")


# With no save: the empty ledger.
EMPTY = Base(None, Point(0, START))


class Plan(NamedTuple):
    """Whose ledger a replica keeps, with which program, so many seconds after the first record that isn't saved it saves, and where it gives
    its saves to others."""

    name: str
    program: str
    seconds: float
    gives_at: Optional[str] = None


class Replica:
    """A ledger that follows the log."""

    def __init__(self, log: Log, saves: Saves, plan: Plan, status: Status, asked: Optional[Asked]) -> None:
        self.log = log
        self.saves = saves
        self.plan = plan
        self.status = status
        self.asked = asked
        self.patience = 1
        self.failures = 0
        self.furthest = 0
        self.unread: Set[str] = set()
        # What one outside the set saved itself: it puts nothing that it could be compared with.
        self.own_saves: Dict[str, bytes] = {}
        # What a second run begins with, and the one that runs; when the first record was answered that isn't saved, and the last one; before
        # which time none begins; and whether the program itself has to save, since the log has no more what a second run would need.
        self.base = EMPTY
        self.second: Optional[SecondRun] = None
        self.unsaved_since: Optional[float] = None
        self.answered_at = 0.0
        self.rests_until = 0.0
        self.must_save = False
        self.is_stopping = False
        self.has_caught_up = False
        self.looks_at = 0.0
        # The nodes that answered last, and the number of their last change then.
        self.seen: Optional[Tuple[str, int]] = None
        self.settings: Settings
        self.votes: Votes
        self.comparing: Comparing
        self.chain = OwnChain(0, EMPTY.at)
        # Where the log has votes by chain.
        self.voting: Optional[Voting] = None

    def stop(self) -> None:
        """Lets it stop after the records at work, and save."""
        self.is_stopping = True

    def tell(self, text: str) -> None:
        print(f"replica {self.plan.name}: {text}", file=sys.stderr, flush=True)

    def run(self, is_again: bool = False) -> None:
        """Follows the log until it is to stop. NeedsPerson where a person has to look."""
        text = self.saves.stopped()
        if text is not None and not is_again:
            raise NeedsPerson(f"stopped here before: {text}; look why, then start it with --again")
        self.begin()
        if text is not None:
            self.start_anew()
        while not self.is_stopping:
            self.turn(self.choose())

    def begin(self) -> None:
        """Learns which log this is, and whether the ledgers of the folder are of it."""
        self.settings, rules = self.patiently(self.log.settings_at)
        self.votes = votes_in(self.log.etcd, self.log.keys, self.settings, self.plan.name)
        self.votes.rules = rules
        self.comparing = Comparing(self.votes, self.tell)
        self.status.differing = self.comparing.differing
        self.status.log_id = self.settings.id
        self.status.is_counted = self.votes.own is not None
        self.status.program = identity(self.plan.program).decode()
        if self.votes.own is None:
            self.tell(f"isn't in the log's set ({', '.join(self.settings.replicas)}): follows, and puts nothing")
        self.tell_unknown(self.settings)
        last = self.patiently(self.log.last)
        for save in self.saves.all():
            if not self.settings.knows(save.log_id):
                raise OtherHistory(f"{save.path} was made of the log {save.log_id}, and this is the log {self.settings.id}")
            if save.log_id == self.settings.id and save.number > last:
                raise OtherHistory(f"{save.path} is ahead of the log, which ends with record {last}: it has lost records, or was "
                                   "restored (deploy/log restored)")
        self.say_itself()
        for number in sorted(self.settings.skips):
            own = None if self.is_chained(number) else self.patiently(self.votes.of, LINES, number).get(self.plan.name)
            if own is not None and own != skipped_line(number, ASKED):
                self.go_back(number, f"has answered record {number}, which is to be skipped")
                break

    def say_itself(self) -> None:
        """Says which protocol it knows, and where it gives its saves."""
        if self.votes.own is not None:
            self.patiently(say, self.log, self.plan.name, PROTOCOL_KEY, str(PROTOCOL))
            self.patiently(say, self.log, self.plan.name, AT, self.plan.gives_at)

    def is_chained(self, number: int) -> bool:
        return self.settings.is_chaining() and number > self.settings.chained

    def start_anew(self) -> None:
        """Sets aside what no majority has voted for, where this replica differed and a person has looked since."""
        for save in self.saves.all():
            final = self.patiently(self.votes.final, SAVED, save.number)
            if final is None or saved_vote_in(final).ledger != save.vote():
                self.tell(f"{save.path} is set aside, since no majority has voted for its digest")
                self.saves.set_aside(save)
        self.saves.start_again()

    def choose(self) -> Base:
        """The newest save that is believed, or the empty ledger. Sets aside those that aren't."""
        for save in self.saves.all():
            if save.path in self.unread:
                continue
            try:
                vote = save.vote()
            except OSError as why:
                self.is_unread(save.path, str(why))
                continue
            at = self.believed(save, vote)
            if at is not None:
                return Base(save.path, at)
            self.saves.set_aside(save)
        return EMPTY

    def is_unread(self, path: str, why: str) -> None:
        self.tell(f"{path} can't be read ({why}): takes the one before")
        self.unread.add(path)

    def believed(self, save: Save, vote: bytes) -> Optional[Point]:
        """The digest of the lines up to a save, where the file is what the log has for its number."""
        if not self.settings.has_save(save.log_id, save.number):
            self.tell(f"{save.path} goes on behind record {save.number} of a log that was restored since: it is set aside")
            return None
        votes = self.patiently(self.votes.of, SAVED, save.number)
        final = self.votes.decided(SAVED, save.number, votes)
        own = self.own_saves.get(save.path) if self.votes.own is None else votes.get(self.plan.name)
        is_decided = final is not None and form_of(SAVED, final) == form_of(SAVED, vote)
        wanted = final if is_decided else own
        said = saved_vote_in(wanted or b"")
        if vote != said.ledger:
            self.tell(f"{save.path} isn't believed: its digest is {shown(vote)}, and the log has "
                      f"{shown(wanted) if wanted else 'none'} for record {save.number}; it is set aside, and the one before "
                      "taken")
            return None
        if not self.is_chained(save.number):
            return Point(save.number, START)
        if said.chain is None or said.skips != self.skips_up_to(save.number):
            self.tell(f"{save.path} was saved before " + ("lines were chained" if said.chain is None else "a record of it was skipped")
                      + ": it is set aside, and the one before taken")
            return None
        return Point(save.number, said.chain)

    def skips_up_to(self, number: int) -> int:
        return sum(one <= number for one in self.settings.skips)

    def turn(self, start: Base) -> None:
        """Goes on from a saved ledger, or from an empty one, until the replica is to stop."""
        number = start.at.number
        self.patiently(self.votes.put_program, number, self.status.program.encode())
        self.base, self.unsaved_since, self.must_save = start, None, False
        self.chain = OwnChain(self.settings.chained, start.at)
        self.voting = self.new_voting()
        running = Program(self.plan.program, number, start.path, self.saves.new())
        self.status.program_id = running.process.pid
        if start.path:
            self.status.saved = number
            self.status.saved_at = self.status.saved_at or os.path.getmtime(start.path)
        try:
            self.follow(running)
            self.end_second()
            if running.number > self.base.at.number and self.is_all_told(running.number):
                began = time.monotonic()
                running.finish()
                self.keep(self.saves.new(), self.chain.end, began)
        except ProgramEnded as ended:
            self.went_wrong(ended, running, start)
        except GoesBack as why:
            self.go_back(why.number, str(why))
        except Behind as why:
            self.fetch(why)
        finally:
            self.end_second()
            running.end()

    def new_voting(self) -> Optional[Voting]:
        if not self.settings.is_chaining():
            return None
        final = Final(self.log.etcd, self.log.keys, self.settings)
        return Voting(final, self.plan.name, self.chain, self.tell, self.comparing.differing)

    def fetch(self, why: Behind) -> None:
        """Gets a save of another replica, where the log doesn't have any more what comes next. Behind where none gives one."""
        self.patiently(Fetching(self.log, self.saves, self.plan.name, self.tell, lambda: self.is_stopping).fetch, self.settings, self.votes,
                       why)

    def follow(self, running: Program) -> None:
        """Answers records and votes on their lines until the replica is to stop."""
        while not self.is_stopping and not self.must_save:
            self.answer_questions(running)
            self.look_after_saves(running.number)
            read = self.patiently(self.log.read, running.number + 1, self.votes.replicas if self.voting else ())
            is_same_set = read.settings.replicas == self.votes.replicas
            self.check_history(read, running.number)
            self.look_at_log(read.last)
            if read.taken:
                self.answered_at = time.monotonic()
                self.unsaved_since = self.unsaved_since or self.answered_at
                self.answer(running, read)
            else:
                running.check()
                self.caught_up(running.number)
            if not (is_same_set and self.is_voted(read)) or read.taken:
                continue
            self.patiently(self.comparing.look)
            self.log.wait(read.revision, WAIT_SECONDS)

    def is_voted(self, read: Read) -> bool:
        """Votes for all that was answered, where the log has votes by chain; whether nothing is left to vote for now."""
        if self.voting is None:
            return True
        self.patiently(self.voting.see, read.votes, read.last)
        done = self.patiently(self.voting.vote, self.votes.rules)
        self.status.held = len(self.comparing.held) + (self.voting.held is not None)
        return done

    def is_all_told(self, number: int) -> bool:
        """Has the lines up to a record told, so that none is lost with this replica; whether that is done."""
        voting = self.voting
        while voting is not None and voting.own is not None and not voting.is_told(number):
            read = self.patiently(self.log.read, self.chain.end.number + 1, self.votes.replicas)
            self.check_history(read, self.chain.end.number)
            if self.voting is not voting:
                return False
            self.patiently(voting.see, read.votes, read.last)
            before = voting.votes.get(voting.own)
            if self.patiently(voting.vote, self.votes.rules, True) and voting.votes.get(voting.own) == before:
                return False
        return voting is None or voting.held is None

    def look_after_saves(self, number: int) -> None:
        """Takes what a second run has saved, and begins one when it is time."""
        if self.second is not None and self.second.is_over():
            self.take_second(self.second)
        is_held = self.voting is not None and self.voting.held is not None
        if self.second is not None or is_held or time.monotonic() < self.rests_until:
            return
        wanted = common_number(self.base.at.number, number, self.settings.every)
        if wanted == 0 and self.unsaved_since and time.monotonic() > self.unsaved_since + self.plan.seconds:
            # While records come, replicas are at different ones.
            is_idle = time.monotonic() > self.answered_at + IDLE_SECONDS
            wanted = number if is_idle else common_number(self.base.at.number, number, 1)
        point = self.chain.point(wanted)
        if point is not None and wanted > self.base.at.number:
            self.unsaved_since = time.monotonic() if number > wanted else None
            self.second = SecondRun(self.log.another(), self.plan.program, self.base, point, self.chain.begins, self.saves.second())

    def settings_now(self) -> Tuple[Settings, int]:
        """What the log says of itself by now. OtherHistory where that isn't of this log any more."""
        try:
            settings, rules = self.patiently(self.log.settings_at)
        except NoLog as why:
            raise OtherHistory(f"{why}; it was made anew, or lost") from None
        if settings.id != self.settings.id:
            raise OtherHistory(f"the log {self.settings.id} is the log {settings.id} now")
        return settings, rules

    def end_second(self) -> None:
        """Ends a second run that hasn't saved yet."""
        if self.second is not None:
            self.second.end()
        self.second = None

    def take_second(self, second: SecondRun) -> None:
        """Keeps what a second run has saved. Differs where it made other lines than the first one."""
        if second.is_other:
            settings, rules = self.settings_now()
            if rules == self.votes.rules:
                raise Differs(f"a second run of the program makes other lines for records {second.base.at.number + 1} to "
                              f"{second.wanted.number} than the first one")
            self.second = None
            self.take_rules(settings, rules, self.chain.end.number)
        elif isinstance(second.error, Behind):
            # Others have saved and cleared meanwhile.
            self.must_save = True
        elif second.is_saved:
            if not self.is_all_told(second.wanted.number):
                return
            self.rests_until = time.monotonic() + REST * second.seconds()
            self.keep(second.path, second.wanted, second.began, second.ledger)
        else:
            self.save_failed(second.wanted.number, str(second.error))
        self.second = None

    def check_history(self, read: Read, number: int) -> None:
        """OtherHistory where the log isn't the one that was followed up to now, or is behind."""
        if read.settings.id != self.settings.id:
            raise OtherHistory(f"the log {self.settings.id} is the log {read.settings.id} now")
        if read.last < number:
            raise OtherHistory(f"the ledger is ahead of the log: it has answered record {number}, and the log ends with "
                               f"{read.last}; it has lost records, or was restored (deploy/log restored)")
        before, self.seen = self.seen, (read.cluster, read.revision)
        if before is not None and (before[0] != read.cluster or before[1] > read.revision):
            raise OtherHistory("the log's nodes were made anew while this replica ran, from a backup or from nothing: what it "
                               "has answered may not be in the log any more; started again, it begins with a save that the log "
                               "knows")
        if read.settings.more.keys() - self.settings.more.keys():
            self.tell_unknown(read.settings)
        self.status.last, self.status.read_at = read.last, time.time()
        self.take_rules(read.settings, read.rules, number)

    def take_rules(self, settings: Settings, rules: int, number: int) -> None:
        """Goes by what the log says of itself from now on. GoesBack where a record that was answered is skipped now, or lines are chained
        from one on that was."""
        new = settings.skips.keys() - self.settings.skips.keys()
        is_chained_now = settings.is_chaining() and not self.settings.is_chaining()
        self.settings, self.votes.rules = settings, rules
        self.votes.carry(settings)
        if self.voting is not None and self.voting.is_stopped != bool(settings.changing):
            self.voting.is_stopped = bool(settings.changing)
            self.tell(f"the log is being changed, {settings.changing}: no votes meanwhile" if settings.changing else "votes go on")
        if settings.replicas != self.votes.replicas:
            self.tell(f"the log's set of replicas is {', '.join(settings.replicas)} now")
            self.votes.replicas = settings.replicas
            self.votes.own = self.plan.name if self.plan.name in settings.replicas else None
            self.status.is_counted = self.votes.own is not None
            self.say_itself()
        if self.voting is not None and self.voting.is_of_others(settings):
            self.voting = self.new_voting()
        for one in sorted(new):
            self.tell(f"record {one} is to be skipped: {settings.skips[one]}")
        if is_chained_now:
            self.comparing.forget_lines()
            raise GoesBack(settings.chained + 1, f"the log goes by protocol {settings.protocol} now, and chains the lines behind record "
                           f"{settings.chained}")
        answered = [one for one in new if one <= number]
        if answered:
            raise GoesBack(min(answered), f"has answered record {min(answered)}, which is to be skipped")

    def go_back(self, number: int, why: str) -> None:
        """Sets aside what was saved from a record on, and forgets what was made since."""
        self.tell(f"{why}: goes on from a save before record {number}")
        for save in self.saves.all():
            if save.number >= number:
                self.saves.set_aside(save)
        self.comparing.forget_from(number)

    def put_votes(self, kind: str, made: List[Vote], number: int) -> bool:
        """Puts what was made, by the rules that it was made by. GoesBack where others hold by now for what was answered."""
        while True:
            try:
                return self.patiently(self.comparing.put, kind, made)
            except RulesChanged:
                settings, rules = self.settings_now()
                self.take_rules(settings, rules, number)

    def tell_unknown(self, settings: Settings) -> None:
        if settings.more:
            self.tell(f"the log's settings have what this program doesn't know, and keeps: {', '.join(sorted(settings.more))}")

    def look_at_log(self, last: int) -> None:
        """Reads now and then what the metrics tell of the log."""
        if time.monotonic() < self.looks_at:
            return
        self.looks_at = time.monotonic() + LOOK_SECONDS
        try:
            agreed, room = self.votes.newest_agreed_save(last), self.log.room(self.settings)
            self.status.log_values = LogValues(self.log.cleared(), agreed.number if agreed else 0, room.used, room.most)
        except (Unreachable, Full) as why:
            self.tell(f"{why}: the metrics have the log's values of before")

    def answer(self, running: Program, read: Read) -> None:
        """Answers what the log has, and votes for the lines; for those before a record at which the program ends too."""
        first, given = running.number + 1, read.taken
        try:
            self.put_lines(first, running.answer(given), given)
        except ProgramEnded as ended:
            self.put_lines(first, ended.made, given)
            self.is_voted(read)
            self.status.stuck = running.number + 1
            raise
        self.status.answered = running.number
        self.status.held = len(self.comparing.held) + (self.voting is not None and self.voting.held is not None)
        self.status.stuck = self.status.stuck if self.status.stuck > running.number else 0

    def put_lines(self, first: int, lines: List[bytes], given: List[Taken]) -> None:
        for number, one in zip(range(first, first + len(lines)), given):
            if one.why is not None:
                self.status.skipped += 1
                self.tell(f"record {number} is skipped: {one.why}" + (f" ({self.settings.skips[number]})" if one.why == ASKED else ""))
        self.chain.add(lines)
        if self.voting is None:
            if lines:
                self.put_votes(LINES, [Vote(first + at, one) for at, one in enumerate(lines)], first + len(lines) - 1)
            self.patiently(self.comparing.look)

    def answer_questions(self, running: Program) -> None:
        """Answers the shows and audits that wait."""
        question = self.asked.next() if self.asked else None
        while question is not None:
            answer = b""
            try:
                answer = running.ask(question.record)
            finally:
                question.answers.put(answer)
            question = self.asked.next() if self.asked else None

    def patiently(self, call: Callable[..., Answer], *given: object) -> Answer:
        """Asks the log again and again while no node answers or it is full, unless the replica is to stop."""
        while True:
            try:
                return call(*given)
            except Unreachable as why:
                if self.is_stopping:
                    raise
                self.tell(f"{why}: asks again")
            except Full as why:
                if self.is_stopping:
                    raise
                self.tell(f"the log is full ({why}): tries again; see deploy/log room")
                time.sleep(FULL_SECONDS)

    def caught_up(self, number: int) -> None:
        """Says once that the end of the log was reached."""
        self.status.answered = number
        if not self.has_caught_up:
            self.tell(f"has answered the log up to its end, record {number}")
        self.has_caught_up = True

    def keep(self, path: str, at: Point, began: float, ledger: bytes = b"") -> None:
        """Keeps the ledger that was saved after a record, where the vote for it may stand in this replica's name. `ledger` is what is voted
        for the file, where that was read already."""
        number = at.number
        try:
            chain = at.digest if self.is_chained(number) else None
            vote = SavedVote(ledger or vote_on(path), chain, os.path.getsize(path), self.skips_up_to(number)).value()
            if not self.put_votes(SAVED, [Vote(number, vote)], self.chain.end.number):
                self.saves.forget(path)
                self.save_failed(number, "another digest stands under this replica's name")
                return
            agreed = {one.number for one in self.patiently(lambda: list(self.votes.agreed_saves(number)))}
            save = self.saves.keep(path, number, self.settings.id, self.settings.every, agreed)
            self.base = Base(save.path, at)
            self.status.save_bytes = os.path.getsize(save.path)
        except OSError as error:
            self.save_failed(number, str(error))
            return
        there = {one.path for one in self.saves.all()}
        self.own_saves = {path: one for path, one in {**self.own_saves, save.path: vote}.items() if path in there}
        self.patience = 1
        self.status.saved, self.status.saved_at = number, time.time()
        self.status.save_seconds = time.monotonic() - began

    def save_failed(self, number: int, why: str) -> None:
        """The next save is tried later than this one."""
        self.rests_until = time.monotonic() + self.patience * self.plan.seconds
        self.patience = min(2 * self.patience, MOST_PATIENCE)
        self.tell(f"the ledger after record {number} isn't saved ({why}): tries again later")

    def went_wrong(self, ended: ProgramEnded, running: Program, start: Base) -> None:
        """Takes the save before one that can't be read, goes on from the last one where a save failed, and starts a program again
        that ended otherwise."""
        is_loading = start.path is not None and running.number == running.base
        if start.path and is_loading and READ_FAULT in ended.words:
            self.is_unread(start.path, ended.words)
        elif is_loading and ended.status == LOAD_REFUSED:
            raise NeedsPerson(f"the program refuses {start.path}, whose digest is the one that the log has ({ended.words}): it is "
                              "another program than the one that saved it")
        elif running.is_finishing:
            self.save_failed(running.number, str(ended))
        else:
            self.has_ended(ended, running.number)

    def has_ended(self, ended: ProgramEnded, number: int) -> None:
        """Waits a while before the program is started again. ProgramEnded where it gets no further."""
        self.failures = 1 if number > self.furthest else self.failures + 1
        self.furthest = max(self.furthest, number)
        self.status.restarts += 1
        how = f"was killed by signal {-ended.status}" if ended.status < 0 else f"has ended ({ended})"
        at = f"at record {self.status.stuck}" if self.status.stuck == number + 1 else f"behind record {number}"
        if self.failures > MOST_RESTARTS:
            self.tell(f"the program {how} {at}, {self.failures} times: see deploy/log skip if no replica can take this record")
            raise ended
        pause = min(FIRST_PAUSE * 2 ** (self.failures - 1), MOST_PAUSE)
        self.tell(f"the program {how} {at}: it is started again in {pause:g} s")
        ends = time.monotonic() + pause
        while time.monotonic() < ends and not self.is_stopping:
            time.sleep(LEAST_SECONDS)
