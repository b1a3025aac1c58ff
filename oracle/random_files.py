"""The files of random scripts."""
from random_access import AccessScript, VendorScript
from random_addresses import AddressScript
from random_balanced import BalancedScript
from random_ends import EndsScript
from random_every import EveryScript
from random_federation import FederationScript, SilenceScript
from random_logins import LoginScript
from random_mutated import MutatedScript
from random_own import OwnScript
from random_places import LoginPlaceScript, OwnPlaceScript
from random_policy import PolicyScript
from random_reverse import ReverseScript
from random_scripts import Script

# For each file: what makes its scripts, their configuration, the first seed and how many scripts it has.
FILES = {
    "small": (Script, "small", 1, 50),
    "small-and-shared": (Script, "small-and-shared", 1001, 50),
    "small-in-two-shards": (Script, "small-in-two-shards", 2001, 60),
    "access": (AccessScript, "access", 3001, 70),
    "access-and-shared": (AccessScript, "access-and-shared", 4001, 70),
    "access-in-two-shards": (AccessScript, "access-in-two-shards", 5001, 70),
    "access-with-vendors": (VendorScript, "access", 20001, 50),
    "all": (ReverseScript, "all", 6001, 90),
    "all-and-shared": (ReverseScript, "all-and-shared", 7001, 90),
    "all-in-two-shards": (ReverseScript, "all-in-two-shards", 8001, 90),
    "federation": (FederationScript, "federation", 9001, 110),
    "federation-of-silent-servers": (SilenceScript, "federation-of-silent-servers", 10001, 80),
    "federation-in-two-shards": (FederationScript, "federation-in-two-shards", 11001, 110),
    "policy": (PolicyScript, "policy", 18001, 90),
    "policy-in-two-shards": (PolicyScript, "policy-in-two-shards", 19001, 90),
    "own": (OwnScript, "own", 21001, 90),
    "own-in-two-shards": (OwnScript, "own-in-two-shards", 22001, 90),
    "own-of-both-kinds": (OwnScript, "own-of-both-kinds", 25001, 90),
    "own-by-several": (OwnPlaceScript, "own-by-several", 26001, 90),
    "own-ends": (EndsScript, "own-ends", 28001, 24),
    "logins-by-several": (LoginPlaceScript, "logins-by-several", 27001, 90),
    "logins-and-shares": (LoginScript, "logins-and-shares", 23001, 80),
    "logins-in-two-shards": (LoginScript, "logins-in-two-shards", 24001, 80),
    "addresses": (AddressScript, "addresses", 29001, 90),
    "balanced-logins": (BalancedScript, "balanced-realms", 30001, 90),
    "balanced-in-two-shards": (BalancedScript, "balanced-realms-in-two-shards", 31001, 90),
    "services-apart-in-logins": (BalancedScript, "realms-of-services-apart", 32001, 60),
    "every-key": (EveryScript, "every-key", 33001, 30),
    "mutated": (MutatedScript, "all", 12001, 50),
    "mutated-and-shared": (MutatedScript, "all-and-shared", 13001, 50),
    "mutated-in-two-shards": (MutatedScript, "all-in-two-shards", 14001, 50),
    "mutated-in-a-federation": (MutatedScript, "federation", 15001, 50),
    "mutated-in-a-federation-of-silent-servers": (MutatedScript, "federation-of-silent-servers", 16001, 50),
    "mutated-in-a-federation-in-two-shards": (MutatedScript, "federation-in-two-shards", 17001, 50),
}


# How many scripts of each file, the first ones, stand among the rows whose growths are refused: that costs the square of a
# row's length. The others are played with memory alone.
REFUSED = 5


def seeds(name, is_refused):
    """The seeds of a file's scripts whose growths are refused, or those of the others."""
    first, count = FILES[name][2:]
    return range(first, first + REFUSED) if is_refused else range(first + REFUSED, first + count)


def file_text(name, is_refused):
    script, configuration = FILES[name][:2]
    these, source = seeds(name, is_refused), script.__module__
    lines = [f"# Random: written by oracle/{source}.py and answered by oracle/broker.py, seeds {these[0]} to "
             f"{these[-1]}."]
    for seed in these:
        lines += script(configuration, seed).lines
    return "".join(line + "\n" for line in lines)
