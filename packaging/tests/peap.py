"""Logins by PEAP: FreeRADIUS as a home server that takes them, and eapol_test as an access server that passes them on.

They need freeradius, eapol_test (Debian's eapoltest) and openssl.
"""
import re
import subprocess

from around import command

SECRET, PASSWORD = "a secret of everybody here", "hello"

# One that has users for PEAP and keeps silent about those of the name `nobody`.
HOME = """
client broker {{ ipaddr = {broker}; secret = "{secret}" }}
modules {{
  eap {{
    default_eap_type = peap
    timer_expire = 60
    max_sessions = 4096
    tls-config common {{
      private_key_file = {directory}/key.pem
      certificate_file = {directory}/cert.pem
      ca_file = {directory}/cert.pem
      cipher_list = "DEFAULT"
      tls_min_version = "1.2"
      tls_max_version = "1.2"
    }}
    peap {{ tls = common; default_eap_type = mschapv2; copy_request_to_tunnel = no; use_tunneled_reply = no; virtual_server = "inner" }}
    mschapv2 {{ }}
  }}
  mschap {{ }}
  pap {{ }}
  always ok {{ rcode = ok }}
  always handled {{ rcode = handled }}
}}
server default {{
  listen {{ type = auth; ipaddr = {ip}; port = {auth} }}
  authorize {{
    if (&User-Name =~ /^nobody/) {{
      update control {{ Response-Packet-Type := Do-Not-Respond }}
      handled
    }}
    eap {{ ok = return }}
    update control {{ Cleartext-Password := "{password}" }}
    update reply {{ Message-Authenticator := 0x00 }}
    pap
  }}
  authenticate {{ pap; eap }}
}}
server inner {{
  authorize {{
    update control {{ Cleartext-Password := "{password}" }}
    mschap
    eap
  }}
  authenticate {{ mschap; eap }}
}}
"""

SUPPLICANT = """network={{
  key_mgmt=WPA-EAP
  eap=PEAP
  identity="{user}"
  password="{password}"
  phase1="peapver=0"
  phase2="auth=MSCHAPV2"
}}
"""


def write_certificate(around):
    """Makes the certificate that all home servers of a trial have."""
    subprocess.run([command("openssl"), "req", "-x509", "-newkey", "rsa:2048", "-nodes", "-subj", "/CN=home", "-days", "9", "-keyout",
                    around.path("key.pem"), "-out", around.path("cert.pem")], check=True, stderr=subprocess.DEVNULL)


def start_home(around, name, at, broker):
    """Starts a home server at an address and a port, which knows the broker by its address."""
    around.freeradius(name, HOME.format(broker=broker, secret=SECRET, directory=around.directory, ip=at[0], auth=at[1], password=PASSWORD), verbose=False)


def accepted_by(around, name):
    """The users whose logins a home server has accepted, in order: its log has a line of each, and one of what was within the tunnel."""
    return re.findall(r"Login OK: \[([^]]*)\] \(from client broker port \d+ cli ", around.log(name))


def logs_in(around, name, user, asks, station):
    """Whether a user logs in from a station, whose access server asks a broker: `asks` has the access server's address, the broker's and
    its port. The supplicant's file has a name of its own."""
    conf = around.write(f"{name}.peap", SUPPLICANT.format(user=user, password=PASSWORD))
    access, broker, port = asks
    ran = subprocess.run([command("eapol_test"), "-c", conf, "-a", broker, "-p", str(port), "-s", SECRET, "-A", access, "-t", "30", "-M", station],
                         stdout=subprocess.PIPE, stderr=subprocess.STDOUT, stdin=subprocess.DEVNULL, check=False)
    return ran.returncode == 0 and ran.stdout.rstrip().endswith(b"SUCCESS")
