"""The groups in which the public items of a crate are listed, by what a caller does, and the callers of each crate."""

from .public import public

# The groups of each crate, with the names that users write. `module::*` stands for all others of a module.
GROUPS = {
    "blocking": {
        "calls": "Call unblock unblock_for Task Cancel CallJob Refused Refusal",
        "lent handles": "Unblock Reader Writer Items CallOn WithMut IntoInner Fault IoFault",
        "reads": "AsyncReadExt AsyncRead ReadSome ReadExact ReadToEnd",
        "writes": "AsyncWriteExt AsyncWrite WriteSome WriteAll Flush Close",
        "seeks": "AsyncSeekExt AsyncSeek SeekTo",
        "copies": "Copier CopyFault",
        "whole": "copy copy_over read_all read_all_over write_all write_all_over call call_over",
        "job types": "Jobs FileJobs CallFileJobs CopyJobs Unused Carries ReadJob WriteJob ItemJob SeekJob OpJob",
        "pipes": "link link_over link_in link_in_over link_drain link_items unlink_in unlink_drain PieceMemory PlaceRule AnyPlace"
        " SendEnd RecvEnd DrainEnd FillEnd PeekEnd ItemSendEnd ItemSending WhyUnsent JobSeated SeenShut ItemRecvEnd Closed ToldEnd SeenEnd OwnerWaker"
        " Store CopyStore RingStore RingMemory FlatStore FlatMemory LendingStore LendingMemory pipe::*",
        "pools": "Executor set_max_blocking_threads set_client_limit max_threads DEFAULT_MAX_THREADS MIN_MAX_THREADS MAX_MAX_THREADS MAX_THREADS_ENV"
        " Counts Runtime Host ThreadStarter Held Ended Added Job JobNo JobStep WakeNote Starter StartRefused pool::*",
    },
    "blocking_core": {
        "calls": "task::Call task::CallOn task::Slot task::Slotted task::Looked task::Polled task::Put task::*",
        "pipes": "pipe::Pipe pipe::BytePipe pipe::ItemPipe pipe::Store pipe::CopyStore pipe::*",
        "jobs": "job::Action job::Answer job::CallCore job::ReadCore job::WriteCore job::ItemCore job::SeekCore job::OpCore job::*",
        "polls": "unblock::OwnerCall unblock::PollCall unblock::State unblock::OwnerAction unblock::OwnerAnswer unblock::Reply unblock::* io::*",
        "copies": "copy::CopyCore copy::*",
        "pools": "pool::Pool pool::Job pool::JobStep pool::JobNo pool::Carries pool::Starter pool::StartRefused pool::* limit::*",
    },
    "blocking_world": {
        "worlds": "World run cut",
        "steps": "Step HandleCall TaskCall HandleAnswer Bytes",
        "what is seen": "Moment Event Act Party Reply HolderWaker WaitEnd",
    },
}
# The programs that call each crate: a source, and the names that are quoted of it.
CALLERS = {
    "blocking": ["blocking_tests/src/pairs.rt use Neighbours Pair await_pair number"],
    "blocking_core": ["blocking_core_tests/src/calls.rt BoxedNumber make", "examples/src/refusal.rt LateStarter Order show add"],
    "blocking_world": ["blk_commands/src/steps.rt played take"],
}
# What a full page leaves to another, which has the same items: the other crate, and the modules there.
LEFT = {"blocking": ("blocking_core", ("pipe::", "pool::"))}
# What such a page quotes all the same.
KEPT = "Carries Refused Refusal".split()


def chosen(words, names, listed):
    """The names that a group stands for, in its order."""
    for word in words.split():
        if word.endswith("::*"):
            yield from (name for name in names if name.startswith(word[:-1]) and name not in listed)
        else:
            yield word


def grouped(crate):
    """The names in each group of a crate, with all that is wrong: a name that isn't public, one that is in no group, one in several."""
    names = public(crate)
    listed = {word for words in GROUPS[crate].values() for word in words.split()}
    groups = {group: list(chosen(words, names, listed)) for group, words in GROUPS[crate].items()}
    counts = dict.fromkeys(names, 0)
    wrong = []
    for group, members in groups.items():
        for name in members:
            if name in counts:
                counts[name] += 1
            else:
                wrong.append(f"{crate}: the group '{group}' names {name}, which isn't public there")
    wrong += [f"{crate}: {name} stands in {count or 'no'} group{'s' * (count > 1)}" for name, count in counts.items() if count != 1]
    return {group: [name for name in members if name in counts] for group, members in groups.items()}, wrong


def left_to_other(crate):
    """The items that the full page of a crate leaves to another page, by what they are there."""
    if crate not in LEFT:
        return {}
    other, modules = LEFT[crate]
    return {item: name for name, item in public(other).items() if name.startswith(modules) and item.part.name not in KEPT}
