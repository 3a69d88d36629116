"""Five BGP daemons as members of an exchange: how each is configured, started, asked and told."""
from .bird import Bird
from .exabgp import ExaBgp
from .frr import Frr
from .gobgp import GoBgp
from .openbgpd import OpenBgpd
from .router import Place, Route, prefixes_of

ALL = (Bird, OpenBgpd, Frr, GoBgp, ExaBgp)
