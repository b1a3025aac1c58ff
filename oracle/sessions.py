"""A realm's ledger of sessions, written from the rules as said in words.

Nothing here is taken from the project's code.
"""
from packets import *

START, STOP, INTERIM_UPDATE, ACCOUNTING_ON, ACCOUNTING_OFF = 1, 2, 3, 7, 8
# What names an access server behind a proxy, in the order in which a record has it.
NAMES_OF_NAS = (NAS_IP_ADDRESS, NAS_IDENTIFIER, NAS_IPV6_ADDRESS)


class Sessions:
    """The sessions of a realm, the oldest first: each of an access server and an Acct-Session-Id, and where the realm looks for
    sessions of its own also of what the accounting named as access server behind that one."""

    def __init__(self, limit, is_own):
        self.limit, self.is_own, self.records = limit, is_own, []

    def nas_of(self, request):
        return tuple(request.first(kind) for kind in NAMES_OF_NAS) if self.is_own else None

    def agrees(self, record, request):
        """Whether each name of an access server in a request is, by its first, the record's."""
        return not self.is_own or all(
            named is None or named == known for named, known in zip(self.nas_of(request), record[1]))

    def apply(self, peer, request):
        """An answered Accounting-Request."""
        status, id = request.first(ACCT_STATUS_TYPE), request.first(ACCT_SESSION_ID)
        if status is None or len(status) != 4:
            return
        status, record = int.from_bytes(status, "big"), (peer, self.nas_of(request), id)
        if status in (ACCOUNTING_ON, ACCOUNTING_OFF):
            self.records = [it for it in self.records if it[0] != peer or not self.agrees(it, request)]
        elif status in (START, INTERIM_UPDATE) and id is not None:
            self.add(record)
        elif status == STOP and record in self.records:
            self.records.remove(record)

    def add(self, record):
        """Where there are too many with it, the access server that has most loses its oldest: of several that have as many, the one
        whose oldest is older."""
        if record in self.records:
            return
        self.records.append(record)
        if len(self.records) > self.limit:
            peers = [it[0] for it in self.records]
            most = max(peers.count(peer) for peer in peers)
            self.records.remove(next(it for it in self.records if peers.count(it[0]) == most))

    def of_request(self, peer, request):
        """The records of that access server with the request's Acct-Session-Id that agree with it."""
        id = request.first(ACCT_SESSION_ID)
        return [it for it in self.records if it[0] == peer and it[2] == id and self.agrees(it, request)]
