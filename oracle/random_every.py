"""Random scripts of all keys together, answered by broker.py.

What random_addresses.py, random_balanced.py, random_own.py and random_places.py make, in one script: access servers at several
addresses, with Operator-Names of several namespaces, whose users are balanced over home servers of one service; logins, sessions of
one's own and Disconnects beside each other, at several endpoints.
"""
from random_addresses import AddressScript
from random_balanced import BalancedScript
from random_own import OwnScript
from random_places import SeveralPlaces


class EveryScript(SeveralPlaces, AddressScript, BalancedScript, OwnScript):
    EVENTS = 66

    def one_of(self, place):
        """The same, where it isn't said already."""
        return place if place.startswith(("auth:", "acct:")) else super().one_of(place)

    def reverse_list(self, realm):
        return OwnScript.reverse_list(self, realm)

    KINDS = (*BalancedScript.KINDS, AddressScript.from_elsewhere, OwnScript.begin, OwnScript.some_end, OwnScript.reverse,
             OwnScript.other_sender)
    WEIGHTS = (*BalancedScript.WEIGHTS, 8, 9, 4, 24, 2)
