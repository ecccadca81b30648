"""The options by which commands name a bus and a duration."""

import argparse


def seconds(text: str) -> float:
    """A duration."""
    try:
        duration = float(text)
    except ValueError:
        duration = 0.0
    if not 0 < duration < 1e9:
        raise argparse.ArgumentTypeError(f"{text} is no number of seconds")
    return duration


def bus_options(parser: argparse.ArgumentParser, is_required: bool) -> None:
    """The options that name a bus of python-can."""
    parser.add_argument("--interface", required=is_required, help="an interface of python-can: socketcan, pcan, vector, ixxat, kvaser, virtual, udp_multicast and others")
    parser.add_argument("--channel", required=is_required, help="a channel of it, as can0, PCAN_USBBUS1 or 239.74.163.2")
    parser.add_argument("--bitrate", type=int, help="bits a second, of an interface that sets them")
