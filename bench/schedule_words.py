"""The words of a link and of how a guest works, which bench/schedule and bench/prepaging share."""
import argparse
from fractions import Fraction

from timed import WAITING, Link


def number_of(text, least, is_that_too=True, most=None):
    try:
        value = Fraction(text)
    except (ValueError, ZeroDivisionError):
        raise argparse.ArgumentTypeError(f"'{text}' is no number, as 20, 0.5 or 1/33") from None
    if value < least or value == least and not is_that_too or most is not None and value >= most:
        raise argparse.ArgumentTypeError(f"{text} is out of range")
    return value


def bandwidth(text):
    return number_of(text, 0, False)


def ticks(text):
    return number_of(text, 0)


def loss(text):
    return number_of(text, 0, most=1)


def add_link(words, usual):
    """The words of a link, with the usual one, or with None where it is told otherwise."""
    told = (f" ({usual.bandwidth})", f" ({usual.delay})") if usual else ("", "")
    words.add_argument("--bandwidth", type=bandwidth, default=usual and usual.bandwidth, metavar="PAGES", help=f"pages that the link carries a tick, as 0.5 or 1/33{told[0]}")
    words.add_argument("--delay", type=ticks, default=usual and usual.delay, metavar="TICKS", help=f"of a packet in one direction{told[1]}")
    words.add_argument("--loss", type=loss, default=Fraction(0), metavar="SHARE", help="of the packets are lost, as 0.01 or 1/100 (0)")
    words.add_argument("--seed", type=int, default=1, metavar="N", help="which packets are lost (1)")


def add_guest(words, usual):
    words.add_argument("--work", type=ticks, default=usual, metavar="TICKS", help=f"that a virtual processor works between two operations ({usual or 1})")
    words.add_argument("--waiting", choices=WAITING, default=WAITING[0], help="who waits for a missed page: its processor alone, or all of the guest (alone)")
    words.add_argument("--retry", type=ticks, metavar="TICKS", help="after which a page that did not come is asked for once more (four times what a page and a delay take)")


def link_of(chosen):
    return Link(chosen.bandwidth, chosen.delay, chosen.loss, chosen.seed)
