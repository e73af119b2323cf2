"""A script that the proved script program answers step by step, and the history that its answers spell: the lines that
bindings/test/judge.c reads, whose head describes them."""
import subprocess


class Answered:
    """A running script. `log`: its events, each a kind and its numbers. `inside`: the place inside, or None.
    `waiting`: how many places wait on each condition. `away`: the event by which each place that waits or signalled
    comes back."""

    def __init__(self, program, places, conditions, mesa=0):
        self.places, self.conditions, self.mesa = places, conditions, mesa
        self.waiting, self.away, self.inside, self.log = [0] * conditions, {}, None, []
        self.process = subprocess.Popen([program], stdin=subprocess.PIPE, stdout=subprocess.PIPE, text=True, bufsize=1)
        self.process.stdin.write(f'monitor {places} {conditions} {mesa}\n')

    def step(self, line):
        """Makes the step of this line, and returns what the program answers."""
        self.process.stdin.write(f'{line}\n')
        answer = self.process.stdout.readline().rstrip('\n')
        step, _, said = answer.partition(' -> ')
        if step != line:
            raise ValueError(f'the answer to "{line}" is "{answer}"')
        word, *numbers = line.split()
        if word == 'first':
            self.note_question(int(numbers[0]), said)
        elif not said.startswith('refused'):
            self.note_act(word, *map(int, numbers))
            self.inside = None if said == 'free' else int(said)
            if self.inside in self.away:
                self.log.append(self.away.pop(self.inside))
        return said

    def note_question(self, condition, said):
        """Notes what `first` answered, if a place is inside, whose question it then is in the log."""
        if self.inside is not None and not said.startswith('refused'):
            count, priority = (0, 0) if said == 'none' else (self.waiting[condition], int(said))
            self.log.append(('asked', self.inside, condition, count, priority))

    def note_act(self, word, place, condition=0, priority=0):
        """Notes the act of a place inside, or of one that enters."""
        count = self.waiting[condition]
        if word in ('enter', 'leave'):
            self.log.append(('admit' if word == 'enter' else word, place))
        elif word == 'wait':
            self.log.append((word, place, condition, priority))
            self.waiting[condition] += 1
            self.away[place] = ('resume', place, condition)
        elif count == 0:
            self.log += [('empty', place, condition)] + [('leave', place)] * (word == 'pass')
        else:
            self.log.append((word, place, condition) + (count,) * (word == 'broadcast'))
            self.waiting[condition] = 0 if word == 'broadcast' else count - 1
            if word == 'signal':
                self.away[place] = ('back', place)

    def outside(self):
        """Returns the places that are outside."""
        return [place for place in range(self.places) if place not in self.away and place != self.inside]

    def is_mesa(self, condition):
        return condition >= self.conditions - self.mesa

    def finish(self):
        """Makes steps until no place is inside or waits."""
        while self.inside is not None or any(self.waiting):
            condition = next((c for c in range(self.conditions) if self.waiting[c]), None)
            if self.inside is None:
                self.step(f'enter {self.outside()[0]}')
            elif condition is None:
                self.step(f'leave {self.inside}')
            else:
                self.step(f'{"broadcast" if self.is_mesa(condition) else "pass"} {self.inside} {condition}')

    def close(self):
        """Ends the script, and returns the log for the judge, without data."""
        self.process.communicate(timeout=60)
        lines = [('sizes', self.places, self.conditions, self.mesa)] + [(*event, 0) for event in self.log] + [('end',)]
        return ''.join(' '.join(map(str, line)) + '\n' for line in lines)
