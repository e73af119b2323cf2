"""All legal histories of a small monitor, up to a number of events, by the definitions of docs/DEFINITIONS.md.

Each definition filters the list of events, as those of crates/hoare_law/specs do. An event is a tuple of its kind and
its numbers, in the order of that page, without data. A wait is known by its index in the history.
"""
from itertools import product
from typing import Iterator, List, NamedTuple, Tuple

Event = tuple
SIGNALS = ('signal', 'signal_to')
HANDS = ('signal', 'pass', 'signal_to')
STAYS = ('admit', 'resume', 'back', 'notify', 'broadcast')


class Monitor(NamedTuple):
    """The sizes of a monitor, and the priorities with which its places wait."""
    places: int
    conditions: int
    mesa: int
    priorities: Tuple[int, ...]

    def is_mesa(self, condition: int) -> bool:
        return condition >= self.conditions - self.mesa

    def all_events(self) -> List[Event]:
        places, conditions = range(self.places), range(self.conditions)
        sets = [(('admit', 'leave', 'back'), [places]), (('wait',), [places, conditions, self.priorities]),
                (('resume', 'broadcast'), [places, conditions]), ((*HANDS, 'notify'), [places, conditions, places])]
        return [(kind, *numbers) for kinds, ranges in sets for kind in kinds for numbers in product(*ranges)]


def acts_in(place: int, events: List[Event]) -> bool:
    return any(event[1] == place for event in events)


def takes(condition: int, place: int, event: Event) -> bool:
    """Returns true if the event takes the place from the waiters on the condition."""
    if event[0] in (*HANDS, 'notify'):
        return event[3] == place
    return event[0] == 'broadcast' and event[2] == condition


class Moment:
    """What the definitions say of a history. `before`: the same of each of its beginnings, the shortest first."""

    def __init__(self, monitor: Monitor, events: List[Event], before: List['Moment']):
        self.monitor, self.events = monitor, events
        self.order = [sorted(self.waiting_on(condition), key=lambda wait: events[wait][3])  # equals keep their order
                      for condition in range(monitor.conditions)]
        later = [events[index + 1:] for index in range(len(events))]
        self.urgent = [event[1] for index, event in enumerate(events)
                       if event[0] in SIGNALS and not acts_in(event[1], later[index])]
        self.called = [wait for index, event in enumerate(events) if event[0] in ('notify', 'broadcast')
                       for wait in before[index].order[event[2]] if takes(event[2], events[wait][1], event)
                       and not acts_in(events[wait][1], later[index])]
        self.turn = self.turn_after(events[-1]) if events else ('free',)

    def waiting_on(self, condition: int) -> List[int]:
        return [index for index, event in enumerate(self.events) if event[0] == 'wait' and event[2] == condition
                and not any(later[1] == event[1] or takes(condition, event[1], later)
                            for later in self.events[index + 1:])]

    def turn_after(self, last: Event) -> tuple:
        if last[0] in STAYS:
            return ('held', last[1])
        if last[0] in HANDS:
            return ('owed', last[3], last[2])
        if self.urgent:
            return ('return', self.urgent[0])
        return ('owed', *self.events[self.called[0]][1:3]) if self.called else ('free',)

    def allows(self, event: Event) -> bool:
        """Returns true if the event, which is in range, may come next."""
        kind, place = event[:2]
        if kind == 'admit':
            own = [other[0] for other in self.events if other[1] == place]
            return self.turn == ('free',) and (not own or own[-1] in ('leave', 'pass'))
        if kind in ('resume', 'back'):
            return self.turn == ('owed' if kind == 'resume' else 'return', *event[1:])
        if self.turn != ('held', place) or kind in ('wait', 'leave'):
            return self.turn == ('held', place)
        waiters = [self.events[wait][1] for wait in self.order[event[2]]]
        if self.monitor.is_mesa(event[2]) != (kind in ('notify', 'broadcast')):
            return False
        return bool(waiters) if kind == 'broadcast' else event[3] in (waiters if kind == 'signal_to' else waiters[:1])


def legal_histories(monitor: Monitor, length: int) -> Iterator[List[Moment]]:
    """Yields the moments of each legal history of up to `length` events whose places begin to act in the order of their
    numbers. (All others have other numbers for the places alone.)"""
    in_range, beginnings = monitor.all_events(), [([], [])]
    while beginnings:
        events, before = beginnings.pop()
        moments = before + [Moment(monitor, events, before)]
        yield moments
        if len(events) < length:
            acted = len({event[1] for event in events})
            beginnings += [(events + [event], moments) for event in in_range
                           if event[1] <= acted and moments[-1].allows(event)]
