"""Tells whether a run that classlink_schedules printed may be that of a schedule, and what it prints where one choice is made for ever.

The judge of tests/workers tells whether history and answers may be printed at all. Here it is looked at who took which turn: a choice takes, of
k requests of the round that have no answer, in the order of their numbers, the one at the place that it leaves modulo k, which makes one step
or its post, or neither. So a line stands only where a request that waits wants it next, a post only where the plan of a request that waits has
ended, and no event comes before a choice that can have made it."""
import os
import sys

sys.path.insert(0, f"{os.path.dirname(os.path.realpath(__file__))}/../workers")

import judge  # noqa: E402


def events_of(lines, posts):
    """The lines of a history, and between them the posts, each the number of a request, counted from 0."""
    at = 0
    for request, before in posts:
        judge.must(at <= before <= len(lines), f"request {request + 1} is posted behind {before} lines")
        yield from lines[at:before]
        at = before
        yield request
    yield from lines[at:]


def walked(rules, script, lines, posts):
    """Of each event who waits where it happens, and who of these may make it. It refuses what none may, and requests that have no post."""
    tables = judge.Tables(rules)
    service = judge.Service(rules, script, tables)
    left, found = list(range(len(script))), []
    for event in events_of(lines, posts):
        judge.must(left, f"'{event}' comes behind all posts")
        waiting = [q for q in left if script[q][0] == script[left[0]][0]]
        courses = {q: service.courses[script[q][1]] for q in waiting}
        if isinstance(event, int):
            judge.must(event in courses, f"request {event + 1} is posted, and does not wait")
            judge.must(courses[event].answer is not None, f"request {event + 1} is posted before its plan has ended")
            left.remove(event)
            found.append((waiting, {event}))
            continue
        step = rules.step(event)
        makers = {q for q, course in courses.items() if course.answer is None and course.wanted() == step}
        judge.must(makers, f"nobody who waits wants '{event}'")
        tables.add(step)
        service.after(step)
        found.append((waiting, makers))
    judge.must(not left, f"there is no post of {[q + 1 for q in left]}")
    return found


def led(events, choices):
    """How many events these choices may have made, at the most."""
    at = 0
    for choice in choices:
        if at == len(events):
            break
        waiting, makers = events[at]
        at += waiting[choice % len(waiting)] in makers
    return at


def why_not(events, choices):
    """Why these are not the events of a schedule; nothing where they may be. Behind the last choice the first that waits is served."""
    for waiting, makers in events[led(events, choices):]:
        if waiting[0] not in makers:
            return f"of {[q + 1 for q in waiting]} one of {sorted(q + 1 for q in makers)} went on, which no choice took"
    return None


def order(script, choice):
    """The requests in the order of their posts, where this choice is made until none waits."""
    left, found = list(range(len(script))), []
    while left:
        waiting = [q for q in left if script[q][0] == script[left[0]][0]]
        found.append(waiting[choice % len(waiting)])
        left.remove(found[-1])
    return found


def printed(text, choice):
    """What the model of tests/model prints of a bundle where this choice is made until none waits: each request is served whole."""
    loaders, files, script = judge.MODEL.given_by(text)
    machine = judge.MODEL.Machine(loaders, files)
    answers, places = [None] * len(script), []
    for request in order(script, choice):
        answers[request] = machine.answer(*script[request][1])
        places.append(f" {request + 1}:{len(machine.history)}")
    lines = machine.history + [f"{number} {answer}" for number, answer in enumerate(answers, 1)]
    return "".join(line + "\n" for line in lines), f"posts{''.join(places)}"
