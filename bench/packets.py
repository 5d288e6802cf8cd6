"""What the makers of captures take from the plain router: packets with a datagram, its sum, and nonces."""
import os
import sys

sys.path.append(os.path.join(os.path.dirname(os.path.dirname(os.path.abspath(__file__))), "crosscheck"))

from nonces import nonce_at  # noqa: E402, F401
from wire import ones_sum, udp_packet  # noqa: E402, F401
