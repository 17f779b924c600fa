"""Phase 7: each function has an instruction, and its last one is Ret, Abort or Branch."""

from functools import partial
from typing import Iterator

from .failures import Advice, Check, Spot
from .subject import Subject

PHASE = 7


def checks(subject: Subject) -> Iterator[Check]:
    """What is checked, in its order."""
    for index in range(len(subject.module.functions)):
        yield Check(partial(check_function, subject, index), index)


def check_function(subject: Subject, index: int) -> None:
    """Wants an instruction, and one at the end that control doesn't go on from."""
    code = subject.module.functions[index].code
    if not code:
        name = subject.module.function_name(subject.module.functions[index].handle)
        subject.fail(PHASE, subject.function(index), "each function has an instruction", "it has none",
                     advice=Advice(f"`{name}` has no instruction", "write `Ret` at least", Spot("function", index)))
    last = len(code) - 1
    if not code[last].opcode.leaves_or_jumps:
        subject.fail_at(PHASE, index, last, "a function's last instruction is Ret, Abort or Branch", f"it is {code[last].name}",
                        advice=Advice(f"control would go on after `{code[last].name}`, where the function ends",
                                      "end the function by `Ret`, `Abort` or `Branch`", Spot("instruction", index, last)))
