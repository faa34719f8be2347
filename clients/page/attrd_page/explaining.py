"""Why a value is what it is, for a window: the equation and what it asked, each step of which may be asked about in its turn."""
from __future__ import annotations

from attrd import AttrdError, Instance, Node, Reason, Why, commands
from attrd.authoring import Specification
from attrd.replies import Answer, Circular, Code, Fault, RefusedReply, Reply, Value

from .hub import Member
from .views import Json


class Overtaken(AttrdError):
    """The tree was edited while a reason was looked for."""


async def explained(member: Member, specification: Specification, tree: Node, version: int, instance: Instance) -> Json:
    """A reason as a window shows it. `tree` is the server's at this version. Raises NoReason, Overtaken, and what a refused line is."""
    running = Why(specification, tree).reason_with_circle(instance)
    try:
        wanted = next(running)
        while True:
            wanted = running.send(_answer(await member.reply(f"at {version} {wanted.command}")))
    except StopIteration as end:
        return _told(end.value)


def _answer(reply: Reply) -> Answer:
    if isinstance(reply, (Value, Fault, Circular)):
        return reply
    if isinstance(reply, RefusedReply) and reply.code is Code.STALE:
        raise Overtaken("the tree was edited meanwhile: ask once more")
    raise AttrdError(f"it can't be asked: {reply}")


def spelled(instance: Instance) -> str:
    """An instance as `read_instance` reads it."""
    return f"{instance.path} {instance.attribute}({','.join(map(commands.argument_text, instance.arguments))})"


def _told(reason: Reason) -> Json:
    steps = [{"text": it.text, "answer": str(it.answer), "instance": spelled(it.instance)} for it in reason.steps]
    return {"kind": "why", "instance": spelled(reason.instance), "answer": str(reason.answer), "place": reason.place, "head": reason.head,
            "equation": " ".join(reason.equation.split()), "at": str(reason.at) if reason.at != reason.instance.path else None,
            "bound": [f"{name} = {_value(value)}" for name, value in reason.bound.items()], "steps": steps,
            "stopped": "\n".join(str(it) for it in (reason.stopped, reason.circle) if it)}


def _value(value: object) -> str:
    return str(value).lower() if isinstance(value, bool) else str(value) if isinstance(value, int) else commands.argument_text(value)
