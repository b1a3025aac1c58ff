"""Random scripts of access servers at several addresses, answered by broker.py.

What random_logins.py makes, and: the same octets from another address of their access server, of another access server, or of
none; requests with the secret of an access server from an address that a longer prefix of another one has. Whose prefixes lie
within whose is in the configuration.
"""
from broker import at
from random_logins import LoginScript


class AddressScript(LoginScript):
    EVENTS = 34

    def any_address(self):
        """An address of some access server, or of none."""
        return "203.0.113.1" if self.chance(0.05) else self.address_of(self.peer())

    def from_elsewhere(self):
        """A request again, octet for octet, mostly from another address of the access server that sent it."""
        held = [e.request for e in self.entries() if e.request.peer is not None]
        if not held:
            return self.access()
        request = self.random.choice(held)
        address = self.address_of(self.config.peers[request.peer]) if self.chance(0.7) else self.any_address()
        place = request.key[0]
        return self.ask("a request again from elsewhere", place, at(address, self.random.choice((5000, 5001))), request.packet.octets)

    KINDS = LoginScript.KINDS + (from_elsewhere,)
    WEIGHTS = LoginScript.WEIGHTS + (12,)
