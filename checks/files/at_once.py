"""Commands that run at once on one key, image or register."""

from world import BY_MAKER, ENDORSE, FACTORY, FLEET, RUN, SIGN

PAIRS = (SIGN, SIGN), (ENDORSE, ENDORSE), (RUN, RUN), (FACTORY, BY_MAKER), (FLEET, FLEET)
CROWD = 8


def pairs(world, first, second, tries):
    """Two at once. Each succeeds, or is refused for the file that both replace."""
    for _ in range(tries):
        at_once(world, [first, second])


def crowds(world, tries):
    """Eight at once sign with one key."""
    for _ in range(tries):
        world.begin(SIGN)
        at_once(world, [SIGN] * CROWD)


def at_once(world, kinds):
    numbers = [world.prepare(kind) for kind in kinds]
    started = [world.start(kind.call(number)) for kind, number in zip(kinds, numbers)]
    ended = [world.end(process) for process in started]
    for kind, number, end in zip(kinds, numbers, ended):
        world.take(kind, number, end)
        judge(world, kind, end)
    done = sum(end.status == 0 for end in ended)
    if done == 0:
        world.tally.wrong.append(f"{kinds[0].name} at once: each of {len(kinds)} was refused")
    world.tally.tried += 1
    world.tally.end(f"{done} of {len(kinds)}")


def judge(world, kind, end):
    """A refusal prints the role, and tells the name and why on one line of standard error."""
    refused = {4: f"read failed {kind.role}\n", 5: f"write failed {kind.role}\n"}
    told = end.told.splitlines()
    is_told = len(told) == 1 and told[0].startswith(f"miniboot: {kind.state}: ")
    if end.status == 0 and not told:
        return
    if end.line != refused.get(end.status) or not is_told:
        world.tally.wrong.append(f"{kind.name} at once ended with {end.status}: {end.line!r}, {end.told!r}")
