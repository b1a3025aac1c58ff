"""Random scripts of several endpoints for each place, answered by broker.py.

What random_own.py and random_logins.py make, and: requests at each `auth`, `acct` and `reverse` there is, and at ones that there
aren't; replies that come by another `out` than their request went.
"""
from broker import *
from random_logins import LoginScript
from random_own import OwnScript


class SeveralPlaces:
    """What a script has besides, whose places have several endpoints."""

    def arrive(self, what, place, source, octets, now=None):
        super().arrive(what, self.one_of(place), source, octets, now)

    def own_at(self, place):
        """The broker's own endpoints of a kind."""
        kind, *numbers = place.split(":")
        if numbers and int(numbers[0]) >= len(self.config.realms):
            return []
        return listed(self.config.realms[int(numbers[0])].get("reverse")) if numbers else getattr(self.config, kind)

    def one_of(self, place):
        """One of the places of the same kind: mostly one that is there."""
        if place.startswith("out"):
            return place
        count = len(self.own_at(place)) + self.chance(0.03)
        which = self.random.randrange(count) if count and self.chance(0.4) else 0
        return f"{place}:{which}" if which else place

    def from_server(self, what, realm, source, octets, out=0):
        if self.chance(0.08):
            out = self.random.randrange(len(self.config.realms[realm]["outs"]) + 1)
        super().from_server(what, realm, source, octets, out)


class OwnPlaceScript(SeveralPlaces, OwnScript):
    KINDS, WEIGHTS = OwnScript.KINDS, OwnScript.WEIGHTS


class LoginPlaceScript(SeveralPlaces, LoginScript):
    KINDS, WEIGHTS = LoginScript.KINDS, LoginScript.WEIGHTS
