"""Rows of logins that stay at their server."""
from formulas import *
from packets import chacha_words
from row import Row

SOURCE = "logins"


def words(number):
    """The Request Authenticator of the Access-Request that the realm forwards as its first, second, ..."""
    return chacha_words(bytes(32), 0, number)


def login(id, state=b""):
    return access(id, NAME + state)


def forward_login(id, ticket, state=b"", secret=H1):
    return forward_access(NAME + state, id, ticket, words(ticket), secret)


STATE = attribute(24, b"\xaa")
row = Row("all-identifiers-where-a-login-is", "logins-of-many-places", SOURCE)
first = forward_login(0, 0)
row.access(0, login(0), [sent(first, S1_AUTH)], "a login; to the first server")
row.reply(0, response(first, STATE, code=11), [given_back(access_back(login(0), 11, STATE), place="auth")], "a Challenge", source=S1_AUTH)
for n in range(1, 256):
    row.access(0, login(n), [sent(forward_login(n, n), S1_AUTH)], f"Identifier {n} there")
row.access(0, login(0), [sent(forward_login(0, 256), S1_AUTH)], "its last Identifier, from another port",
           source=NAS2)
row.access(1, login(1, STATE), [sent(forward_login(0, 257, STATE, H2), S2_AUTH)], "the login goes on: to the second server", source=NAS2)
last = response(forward_login(9, 9), code=2)
row.reply(2, last, [given_back(access_back(login(9), 2), place="auth")], "Identifier 9 at the first server is free", source=S1_AUTH)
row.access(3, login(2, STATE), [sent(forward_login(9, 258, STATE), S1_AUTH)], "the login goes on: to the first server", source=NAS2)
row.access(4, login(3, STATE), [sent(forward_login(1, 259, STATE, H2), S2_AUTH)], "and to the second again", source=NAS2)
