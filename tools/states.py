"""What the models of tools/waking and tools/relaying share: they take the steps of all threads in each order, breadth first.

A model has `first()`, the state that it begins with; `steps(s)`, which gives each step from a state as whose it is, its thread, what it does,
and the state behind it; `in_order(s)`, one state for all that are alike; `name(who)` of a thread; `why_restless(s)`, what is wrong where no
own step is left, or ''; `WELL`, which says that nothing is; and `mistakes`. A state has `threads`, each of which is at the method of its
model that takes its next step, or sleeps there.

A step is its thread's own, which comes sooner or later, or one that may never come: the world's, a wait that ends by itself, a limit of time.
"""
import sys
import time
from array import array

# Whose a step is. One that isn't its thread's own may never come.
OWN, WORLD, ITSELF, LIMIT = "", "the world", "by itself", "a limit of time"

ASLEEP = "asleep in "


def put(s, who, t, at, **changes):
    """The state with this thread there, and with these changes."""
    return s._replace(threads=s.threads[:who] + (t._replace(at=at),) + s.threads[who + 1:], **changes)


def wake(s, who):
    """The state once this thread was notified."""
    t = s.threads[who]
    return put(s, who, t, t.at.removeprefix(ASLEEP)) if t.at.startswith(ASLEEP) else s


def first_on_round(starts, to):
    """The first of the states that lie on a round of own steps, or behind one; or None."""
    before = [0] * (len(starts) - 1)
    for it in to:
        before[it] += 1
    free = [it for it, count in enumerate(before) if count == 0]
    while free:
        here = free.pop()
        for it in to[starts[here]:starts[here + 1]]:
            before[it] -= 1
            if before[it] == 0:
                free.append(it)
    return next((it for it, count in enumerate(before) if count), None)


def search(m):
    """How many states it saw, what is wrong where no own step is left, or '', and the states of the shortest course to there."""
    states = [m.in_order(m.first())]
    numbers, came_from, starts, to = {states[0]: 0}, [-1], array("l", [0]), array("l")
    while len(starts) <= len(states):
        here = len(starts) - 1
        for kind, _, _, after in m.steps(states[here]):
            after = m.in_order(after)
            number = numbers.setdefault(after, len(states))
            if number == len(states):
                states.append(after)
                came_from.append(here)
            if kind == OWN:
                to.append(number)
        starts.append(len(to))
        why = m.why_restless(states[here]) if starts[-1] == starts[-2] else ""
        if why:
            return len(states), why, course_to(states, came_from, here)
    number = first_on_round(starts, to)
    if number is None:
        return len(states), "", []
    return len(states), "steps go round for ever", course_to(states, came_from, number)


def course_to(states, came_from, number):
    """The states on the way to this one, from the first."""
    course = []
    while number >= 0:
        course.append(states[number])
        number = came_from[number]
    return course[::-1]


def write_course(m, course):
    """The steps between these states, each with its thread. One of several that are alike has one number in all of them."""
    s = m.first()
    for goal in course[1:]:
        kind, who, says, s = next(it for it in m.steps(s) if m.in_order(it[3]) == goal)
        print(f"    {m.name(who):10}  {says}{kind and f'  ({kind})'}")


class Tool:
    """A model's class, its configurations, and the mistakes that are found where they are planted in it, or that do no harm."""

    def __init__(self, model, brief, long, mistakes, harmless):
        self.model, self.brief, self.long, self.mistakes, self.harmless = model, brief, long, mistakes, harmless

    def run(self, words):
        """Goes through these configurations, with the mistakes that are planted in them, and answers whether something is wrong."""
        found = False
        for word in words:
            name, *mistakes = word.split("/")
            begun, m = time.monotonic(), self.model((self.brief | self.long)[name], *mistakes)
            states, why, course = search(m)
            print(f"{word:16}{states:10,} states {time.monotonic() - begun:6.1f} s  {why or m.WELL}", flush=True)
            if why:
                write_course(m, course)
            found = found or bool(why)
        return found

    def plant(self, table, is_to_be_found):
        """Plants each of these mistakes, and answers whether one isn't found that is to be, or is found that isn't."""
        missed = False
        for name, mistakes in table.items():
            for mistake in mistakes.split():
                _, why, _ = search(self.model(self.brief[name], mistake))
                is_right = bool(why) == is_to_be_found
                says = f"found: {why}" if why else self.model.WELL
                print(f"{name}/{mistake}  {says}{'' if is_right else '  WRONG'}", flush=True)
                missed = missed or not is_right
        return missed

    def main(self, words, usage):
        if words == ["mistakes"]:
            is_missed, is_false = self.plant(self.mistakes, True), self.plant(self.harmless, False)
            return is_missed or is_false
        planted = " ".join([*self.mistakes.values(), *self.harmless.values()]).split()
        for name, *mistakes in (word.split("/") for word in words):
            if name not in self.brief | self.long or not set(mistakes) <= set(planted):
                sys.exit(usage)
        return self.run(words or self.brief)
