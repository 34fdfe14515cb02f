"""What guests report, held against what is found after the current failed."""

import re
from collections import Counter
from dataclasses import dataclass, field

MOUNT, OPENING, WORK, RENEWAL = "before the mount", "in an opening", "at work", "in a renewal"


class Wrong(Exception):
    """Something reported is missing, something is there that nobody announced, or a guest says what it should not."""


@dataclass
class Counts:
    reported: int = 0  # bookings reported as durable
    openings: int = 0  # openings held against the ledger
    more: int = 0  # of these, with more than was reported
    torn: int = 0  # logs that ended torn
    cleared: int = 0  # openings that cleared bytes behind the log's end; all the torn logs are among them
    renewed: int = 0
    answered: int = 0  # errors that the drive answered
    told: int = 0  # errors that a guest told
    killed: int = 0  # processes killed in a flush
    sectors: int = 0  # not flushed when the current failed
    cuts: Counter = field(default_factory=Counter)  # by what the drive chose
    places: Counter = field(default_factory=Counter)  # by where the guest was


@dataclass
class Ledger:
    """Of one file, over all its runs. Steps are numbered from 1, and each booking is of the next one."""

    counts: Counts
    ahead: int  # a guest that does not announce its bookings is so many steps ahead of its reports
    reported: int = 0  # up to this step everything has to be there
    announced: int = 0  # up to this step it may
    place: str = MOUNT  # where a cut would fall now
    told: int | None = None  # the last step that an opening has told so far, while its lines come

    def read(self, text, may_fail):
        """All that stood on the console of one run, whose last line may have been cut off. may_fail: the drive answered an error. Answers where the
        cut fell."""
        self.place = MOUNT
        for line in text.split("\n")[:-1]:
            self.line(line, may_fail)
        # An opening's lines may have broken off. What they told is reported; whether there was more, the next run tells.
        if self.told is not None and self.told > self.reported:
            self.found(self.told)
        self.told = None
        return self.place

    def line(self, line, may_fail):
        word, _, rest = line.partition(" ")
        if word == "found":
            self.told = number(rest)
        elif word == "cleared:":
            self.counts.cleared += 1
        else:
            if self.told is not None:
                self.found(self.told)
            self.told = None
            self.event(word, rest, line, may_fail)

    def event(self, word, rest, line, may_fail):
        if word == "restarted:":
            self.told, self.place = 0, WORK
            self.counts.torn += "torn" in rest.lower()
        elif word == "books":
            self.announced = number(rest)
        elif word == "booked":
            self.booked(number(rest))
        elif word == "fsync":
            # After an opening there is none but in a renewal.
            self.place = RENEWAL if self.place == WORK else self.place
        elif word == "renews":
            self.place = RENEWAL
        elif word == "renewed":
            self.place = WORK
            self.counts.renewed += 1
        elif line == "Killed":
            self.place = OPENING
            self.counts.killed += 1
        elif line.startswith("machine runs"):
            self.place = OPENING
        elif word in ("bench:", "guest:") and may_fail and "Input/output error" in rest:
            self.place = OPENING
            self.counts.told += 1
        elif not harmless(line, may_fail):
            raise Wrong(f"the console says: {line}")

    def booked(self, step):
        if not self.reported <= step <= max(self.announced, self.reported + self.ahead):
            raise Wrong(f"step {step} is reported after {self.reported}")
        self.counts.reported += step - self.reported
        self.reported = step

    def found(self, step):
        """An opening told this step as its last."""
        if step < self.reported:
            raise Wrong(f"lost: {self.reported} steps were reported, {step} are found")
        if step > max(self.announced, self.reported + self.ahead):
            raise Wrong(f"{step} steps are found, {self.reported} were reported and {self.announced} announced")
        self.counts.openings += 1
        self.counts.more += step > self.reported
        # What an opening has told is reported.
        self.reported = self.announced = step


def number(text):
    return int(re.match(r"\d+", text)[0])


def harmless(line, may_fail):
    """Lines that say nothing about a booking; those of the kernel about the error that it was answered among them."""
    if line in ("", "machine is done"):
        return True
    return may_fail and re.match(r"\[ *\d+\.\d+\] .*(I/O error|failed to convert|lost async page write)", line)
