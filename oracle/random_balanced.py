"""Random scripts of home servers of one service, and of requests that their users balance, answered by broker.py.

What random_logins.py makes, and: users and stations that begin at each server, stations of no octets and several in one request,
accounting of the same users, and replies from the endpoints of other servers.
"""
from broker import *
from random_logins import LoginScript
from random_scripts import Script

CALLING_STATIONS = (b"02-00-00-00-00-01", b"02-00-00-00-00-02", b"02-00-00-00-00-04", b"", b"s", b"t")


class BalancedScript(LoginScript):
    def user(self):
        """One of a few users of a realm: they begin at different servers."""
        if self.chance(0.2):
            return super().user()
        return self.random.choice((b"u", b"v", b"w", b"x")) + b"@" + self.name_of(self.random.choice((0, 0, 1))).encode()

    def station(self, attributes):
        """Mostly a station, sometimes two."""
        for _ in range(self.random.choice((0, 0, 1, 1, 1, 2))):
            self.put(attributes, (CALLING_STATION_ID, self.random.choice(CALLING_STATIONS)))
        return attributes

    def access_list(self, must_seal):
        return self.station(super().access_list(must_seal))

    def of_one_user(self):
        """Access and accounting of one user, until some server has no answer left to give."""
        peer, user = self.peer(), self.user()
        station = self.station([])
        for _ in range(self.random.choice((1, 2, 3))):
            octets = self.access_of(peer, [(USER_NAME, user), *station, (SEAL, ZEROS)])
            self.ask("one of a user's", "auth", self.port_of(peer), octets)
            octets = signed(4, self.id(), ZEROS, [(USER_NAME, user), *station], peer["secret"].encode())
            self.ask("accounting of that user", "acct", self.port_of(peer), octets)

    KINDS = (*LoginScript.KINDS, of_one_user, Script.tick)
    WEIGHTS = (*LoginScript.WEIGHTS, 14, 6)
