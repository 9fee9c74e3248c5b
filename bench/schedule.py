#!/usr/bin/env python3
"""Reckons what workers gain, by the order in which visits, jobs and jumps come.

    python3 bench/schedule.py [--visits N] [--ahead A] [--right SHARE] [--job R..] [--most W] [--queue Q]
    python3 bench/schedule.py --counted PROGRAM [--visits N] [--ahead A] [--most W] [--queue Q]

Time goes in laps of a plain run. A walk makes N visits. At each it offers a job for the visit A later, if there is room
in a queue of Q, or 2W. A worker takes the oldest job, and its entry is there R laps later, give or take a twentieth. Where
the entry of a visit is there, and right, the walk is at the next visit at once, and else a lap later. For each R and W
are printed, once where the jobs for all visits are offered, and once where those of the workers' share are, as `Share` of
asc_live says:

    the gain over a plain run, and its part of 1 + W * SHARE / R
    how many jobs were pushed, and how many visits the walk jumped from

What visits cost the run, a wake and a busy machine cost is left out. So what is printed is more than what can be measured.

With --counted, three examples have a row: R, the steps of a lap, the visits, and the laps outside of these. bench/jobs.py
counts them with the built PROGRAM, so that no clock has part in the gains. The budget for visits is in them. R is that of a
job with its visit. Where N is given, there are so many visits, and laps outside of them in proportion.
"""

import argparse
import random
import sys

sys.dont_write_bytecode = True

import harness
from jobs import CASES, numbers_of


def every(workers, visit):
    """The jobs for all visits are offered."""
    return True


def share(workers, visit):
    """One visit in each row of W + 1 is left to the walk: crates/asc_live/src/share.rt."""
    return workers > 0 and visit % (workers + 1) != 1


# Inputs that are longer than those of jobs.py: laps of matrix grow with its side.
LONGER = {"matrix": "200\n", "collatz_chunks": "20000\n"}


class Crew:
    """A queue and the workers that take jobs from it."""

    def __init__(self, workers, room, job, right, chance):
        self.room, self.job, self.right, self.chance = room, job, right, chance
        self.free = [0.0] * workers
        self.queue, self.pushed, self.entries = [], 0, {}

    def work(self, now):
        """Takes the jobs whose turn comes by then."""
        while self.queue:
            visit, since = self.queue[0]
            begun = max(min(self.free), since)
            if begun > now:
                return
            self.queue.pop(0)
            done = begun + self.job * self.chance.uniform(0.95, 1.05)
            self.free[self.free.index(min(self.free))] = done
            if self.chance.random() < self.right:
                self.entries[visit] = done

    def push(self, visit, now):
        """Whether there was room for a job."""
        if len(self.queue) >= self.room:
            return False
        self.queue.append((visit, now))
        self.pushed += 1
        self.work(now)
        return True


class Budget:
    """What visits may cost, in steps of the guest: crates/asc_live/specs/Budget.antt. A visit copies two pages. Where the
    steps of a lap are not known, each visit is paid for."""

    def __init__(self, workers, lap):
        self.cost, self.lap, self.passing = (2000 + 500 * workers if lap else 0), lap, False
        self.steps, self.owed = 32 * self.cost, 0

    def passes(self, filled):
        """Whether a visit is passed over; it is charged where it is paid for."""
        pays = self.steps >= (32 * self.cost if self.passing else self.cost)
        self.passing = filled and not pays
        charge = self.cost + 2 * 256 if pays and self.cost else 0
        self.steps, self.owed = max(0, self.steps - charge), self.owed + max(0, charge - self.steps)
        return self.passing

    def look_up(self, jumped):
        gained = self.lap * (4 if jumped else 1)
        self.steps = min(self.steps + max(0, gained - self.owed), 32 * self.cost)
        self.owed = max(0, self.owed - gained)


def walk(crew, offers, visits, ahead, lap=0):
    """How long a walk with laps of so many steps takes, and from how many visits it jumps."""
    now, jumps, issued, kept = 0.0, 0, 0, False
    budget = Budget(len(crew.free), lap)
    for visit in range(1, visits + 1):
        crew.work(now)
        filled = crew.pushed >= crew.room
        passed = budget.passes(filled)
        if passed:
            issued = visit + ahead
        elif kept:
            for later in range(max(issued, visit) + 1, visit + ahead + 1):
                if not filled or offers(len(crew.free), later):
                    crew.push(later, now)
            issued = visit + ahead
        kept = not passed
        jumped = not passed and crew.entries.get(visit, now + 1) <= now
        jumps += jumped
        now += not jumped
        budget.look_up(jumped)
    return now, jumps


def gain_of(asked, workers, offers, visits, job, outside=0, lap=0):
    """The gain of a walk with so many visits, where so many laps more are outside of them, and its crew and jumps."""
    crew = Crew(workers, asked.queue or 2 * workers, job, asked.right, random.Random(1))
    time, jumps = walk(crew, offers, visits, asked.ahead, lap)
    return (visits + outside) / (time + outside), crew, jumps


def counted(asked):
    """A row of gains for each example."""
    program = harness.asc(asked.counted)
    print(f"{'':16}{'R':>6}{'steps':>9}{'visits':>8}{'outside':>9}  gains with 1 to {asked.most} workers")
    for name, text in CASES.items():
        lap, job, visits, outside, steps = numbers_of(program, name, LONGER.get(name, text))
        if asked.visits:
            visits, outside = asked.visits, outside * asked.visits / visits
        gains = [gain_of(asked, workers, share, visits, job / lap, outside, steps)[0]
                 for workers in range(1, asked.most + 1)]
        print(f"{name:16}{job / lap:6.2f}{steps:9.0f}{visits:8}{outside:9.1f} ", *(f"{gain:5.2f}" for gain in gains))


def main():
    parser = argparse.ArgumentParser(description=__doc__, formatter_class=argparse.RawDescriptionHelpFormatter)
    parser.add_argument("--visits", type=int, metavar="N", help="how many visits (223, or as counted)")
    parser.add_argument("--ahead", type=int, default=16, help="how many visits ahead jobs are for (16)")
    parser.add_argument("--right", type=float, default=1.0, metavar="SHARE", help="how many guesses are right (1)")
    parser.add_argument("--job", type=float, nargs="+", default=[1.5, 1.8, 2.2], metavar="R", help="laps a job takes")
    parser.add_argument("--most", type=int, default=3, help="the most workers (3)")
    parser.add_argument("--queue", type=int, metavar="Q", help="how many jobs the queue holds (2W)")
    parser.add_argument("--counted", metavar="PROGRAM", help="count three examples with this built asc")
    asked = parser.parse_args()
    if asked.counted:
        counted(asked)
        return
    print(f"{'R':>4} {'W':>3}   {'for all visits':30}   {'for the share':30}")
    for job in asked.job:
        for workers in range(1, asked.most + 1):
            cells = []
            for offers in (every, share):
                gain, crew, jumps = gain_of(asked, workers, offers, asked.visits or 223, job)
                part = gain / (1 + workers * asked.right / job)
                cells.append(f"{gain:5.2f} {part:5.2f}  {crew.pushed:5} pushed {jumps:5} jumps")
            print(f"{job:4.1f} {workers:3}   {cells[0]:30}   {cells[1]:30}")


if __name__ == "__main__":
    main()
