"""Changes of what the log says of itself, which all replicas follow."""

from typing import Dict, List, Sequence, Tuple

from .errors import LogError
from .final import ChainVotes, Final, votes_of_entries
from .keys import LINES, PROTOCOL as PROTOCOL_KEY, SAVED, VOTE, numbered
from .log import Log
from .requests import Body, equal, get, put, unchanged, value_of
from .settings import CHAINING_PROTOCOL, SKIPPING_PROTOCOL, Agreed, Limit, Settings, Settled
from .votes import Vote, Votes, votes_in

# How often a change is tried that has to come between two records.
MOST_TRIES = 100


def check_still(settings: Settings) -> None:
    """LogError where what the log says of itself is just being changed."""
    if settings.changing:
        raise LogError(f"the log is just being changed, {settings.changing}: try again; if that has ended halfway, `log set --take-over` "
                       "lets its replicas vote again")


def exchange(log: Log, changed: int, new: Settings, *compare: Body) -> int:
    """Puts new settings where those of a change still stand. The change that has put them; 0 where what is compared beside doesn't hold.
    LogError where someone else has put others."""
    done, _, revision = log.etcd.transacted([unchanged(log.keys.log, changed), *compare], [put(log.keys.log, new.text())], [])
    if done:
        return revision
    there = log.etcd.entry(log.keys.log)
    if there is not None and there.changed == changed:
        return 0
    # It may be done by this one, whose answer got lost.
    if there is None or there.value != new.text():
        raise LogError("what the log says of itself was changed meanwhile: try again")
    return there.changed


def change_set(log: Log, changed: int, old: Settings, new: Settings) -> None:
    """Puts settings with another set of replicas, with the save that the old set has agreed on, and with what it has made final: votes stand
    still meanwhile, so that nothing becomes final beside it. LogError as `with_agreed`, and where the votes don't stand still."""
    check_still(old)
    if not old.is_chaining():
        exchange(log, changed, with_agreed(log, old, new))
        return
    changed = exchange(log, changed, old._replace(changing=f"the set to {','.join(new.replicas)}"))
    try:
        for _ in range(MOST_TRIES):
            votes, compare = chain_votes_now(log, old.replicas)
            there = with_final(log, old, with_agreed(log, old, new), votes)
            if exchange(log, changed, there, *compare):
                return
        raise LogError("replicas vote on, though the log is being changed: upgrade deploy/ on the machines of all")
    except LogError:
        exchange(log, changed, old)
        raise


def with_final(log: Log, old: Settings, new: Settings, votes: ChainVotes) -> Settings:
    """Settings of another set, with what the old one has made final by these votes, and whose lines are to be read still."""
    end, cleared = log.last(), log.cleared()
    last = Final(log.etcd, log.keys, old).last(votes, end)
    told = {**old.former, **{name: min(vote.own, end) for name, vote in votes.items()}}
    return new._replace(settled=Settled(last.number, last.digest.hex()) if last else None,
                        former={name: number for name, number in told.items() if name not in new.replicas and number > cleared})


def with_agreed(log: Log, old: Settings, new: Settings) -> Settings:
    """Settings of another set, with the save that the old one has agreed on. LogError where the log is cleared and none of the new set has
    put such a save from there on, nor a majority of it the same one: nobody could answer the records behind it."""
    votes = votes_in(log.etcd, log.keys, old)
    cleared, saves = log.cleared(), list(votes.agreed_saves(log.last()))
    both = Votes(log.etcd, log.keys, sorted({*old.replicas, *new.replicas}))
    put_by: Dict[int, List[str]] = {
        save.number: [name for name, value in both.of(SAVED, save.number).items() if value == save.value] for save in saves}
    carried = [save for save in saves if save.number >= cleared and set(put_by[save.number]) & set(new.replicas)]
    own = [save for save in Votes(log.etcd, log.keys, new.replicas).agreed_saves(log.last()) if save.number >= cleared]
    if cleared and not carried and not own:
        who = sorted({name for save in saves if save.number >= cleared for name in put_by[save.number]})
        do = f"keep one of {', '.join(who)} in the set" if who else "no replica has one: see 'Change the set' in docs/REPLICAS.md"
        raise LogError(f"the log is cleared up to record {cleared}, and none of {', '.join(new.replicas)} has put an agreed save from "
                       f"there on: {do}")
    best = max([*carried, *([Vote(old.agreed.number, old.agreed.value.encode())] if old.agreed else [])], default=None)
    return new._replace(agreed=Agreed(best.number, best.value.decode("ascii", "replace")) if best else None)


def with_skipping(settings: Settings) -> Settings:
    """Settings that only those may go by who know how to skip what they say."""
    return settings._replace(protocol=max(settings.protocol, SKIPPING_PROTOCOL))


def put_limit(log: Log, changed: int, settings: Settings, size: int, budget: int) -> None:
    """Puts settings with a limit that holds from the next record on: what is put already keeps its answer."""
    check_still(settings)
    for _ in range(MOST_TRIES):
        last = log.last()
        limit = Limit(last + 1, size, budget)
        others = tuple(one for one in settings.limits if one.first < limit.first)
        new = with_skipping(settings)._replace(limits=(*others, limit))
        compare = [unchanged(log.keys.log, changed), equal(log.keys.last, numbered(last) if last else None)]
        if log.etcd.transact(compare, [put(log.keys.log, new.text())], [])[0]:
            return
        if log.settings_at()[1] != changed:
            break
    raise LogError("what the log says of itself was changed meanwhile, or records came too fast: try again")


def skip_record(log: Log, number: int, reason: str) -> None:
    """Has all replicas skip a record. LogError where it isn't in the log, or a majority has answered it: its lines, or those of a record
    behind it, may be final."""
    settings, changed = log.settings_at()
    check_still(settings)
    if settings.settled and number <= settings.settled.number:
        raise LogError(f"record {number} was answered by an earlier set of replicas: what is final isn't skipped any more")
    if number in settings.skips:
        raise LogError(f"record {number} is skipped already: {settings.skips[number]}")
    if not log.cleared() < number <= log.last():
        raise LogError(f"the log has no record {number}")
    new = with_skipping(settings)._replace(skips={**settings.skips, number: reason})
    # Replicas before the record vote on: only votes on it count.
    for _ in range(MOST_TRIES):
        voted, compare = votes_on(log, settings, number)
        if 2 * len(voted) > len(settings.replicas):
            raise LogError(f"record {number} is answered by {', '.join(sorted(voted))}: what a majority has answered isn't skipped any more")
        # At the same moment none of them may have put more: replicas vote only by the settings that stand.
        if log.etcd.transact([unchanged(log.keys.log, changed), *compare], [put(log.keys.log, new.text())], [])[0]:
            return
        if not settings.is_chaining() or log.settings_at()[1] != changed:
            break
    raise LogError("a replica answered it meanwhile, or what the log says of itself was changed: try again")


def votes_on(log: Log, settings: Settings, number: int) -> Tuple[List[str], List[Body]]:
    """Who of the set has voted on a record, and comparisons that hold as long as nobody votes again."""
    if not settings.is_chaining() or number <= settings.chained:
        votes = Votes(log.etcd, log.keys, settings.replicas).of(LINES, number)
        return list(votes), [equal(log.keys.vote(name, LINES, number), votes.get(name)) for name in settings.replicas]
    said, compare = chain_votes_now(log, settings.replicas)
    return [name for name, vote in said.items() if vote.made.number >= number], compare


def chain_votes_now(log: Log, names: Sequence[str]) -> Tuple[ChainVotes, List[Body]]:
    """The votes of replicas by chain, and comparisons that hold as long as none of them votes again."""
    keys = [log.keys.own(name, VOTE) for name in names]
    found = log.etcd.transact([], [get(key) for key in keys], [])[1]
    return votes_of_entries(names, found), [unchanged(key, entries[0].changed if entries else 0) for key, entries in zip(keys, found)]


def upgrade(log: Log) -> Settings:
    """Has all go by the newest protocol from the newest agreed save on. LogError where they do already, or a replica of the set doesn't know
    it."""
    settings, changed = log.settings_at()
    check_still(settings)
    if settings.is_chaining():
        raise LogError(f"the log goes by protocol {settings.protocol} already")
    asked = [get(log.keys.own(name, PROTOCOL_KEY)) for name in settings.replicas]
    found = [value_of(entries) or b"" for entries in log.etcd.transact([], asked, [])[1]]
    old = [name for name, text in zip(settings.replicas, found) if not text.isdigit() or int(text) < CHAINING_PROTOCOL]
    if old:
        raise LogError(f"{', '.join(old)} was never started with a version of deploy/ that knows protocol {CHAINING_PROTOCOL}: upgrade deploy/ on "
                       "the machines of all replicas and submitters, start the replicas one by one, and try again")
    agreed = votes_in(log.etcd, log.keys, settings).newest_agreed_save(log.last())
    if agreed is None and log.cleared() > 0:
        raise LogError("no majority has voted for the digest of a save behind what was cleared: wait until the replicas have saved")
    new = settings._replace(protocol=CHAINING_PROTOCOL, chained=agreed.number if agreed else 0)
    exchange(log, changed, new)
    return new
