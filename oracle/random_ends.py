"""Random scripts of sessions that end many at once, answered by broker.py.

What random_own.py makes, but ledgers of many sessions, and mostly: sessions that begin in long rows at several access servers behind
one; Accounting-On and -Off of one of them, of several by one of their names, and of all behind a peer, also while others were ended
just before; the same sessions anew; and Disconnects that ask for what is open.
"""
from broker import *
from random_own import OwnScript
from random_policy import PolicyScript
from random_reverse import PORT, ReverseScript
from random_scripts import Script


class EndsScript(OwnScript):
    EVENTS = 160

    def session(self):
        return self.random.choice((b"1", b"2", b"3", b"4", b"5", b"6", b"7", b"8"))

    def begin(self):
        """Sessions that begin, in a long row and mostly at one peer."""
        realm, peer = self.random.randrange(len(self.config.realms)), self.peer()
        for _ in range(self.random.choice((2, 6, 12, 20))):
            peer = peer if self.chance(0.85) else self.peer()
            self.of_session(1, realm, peer, self.nas(peer))

    def some_end(self):
        """An end, and then Disconnects that ask for sessions that were open before it."""
        before = [(realm.index, record) for realm in self.broker.realms for record in realm.sessions.records]
        super().some_end()
        for realm, record in self.random.sample(before, min(len(before), 5)):
            self.ask_for(realm, record)

    def ask_for(self, realm, record):
        """A Disconnect for a session, by its access server's names and its id."""
        index, nas, session = record
        attributes = self.known(nas) or self.nas(self.config.peers[index])
        ip, secret = self.home(realm)
        octets = signed(DISCONNECT_REQUEST, self.id(), ZEROS, [*attributes, (ACCT_SESSION_ID, session)], secret)
        self.ask("a Disconnect", f"reverse:{realm}", at(ip, PORT), octets)

    KINDS = (OwnScript.accounting, begin, some_end, ReverseScript.repeat, OwnScript.reverse, PolicyScript.reply, Script.tick)
    WEIGHTS = (2, 8, 9, 1, 12, 1, 2)
