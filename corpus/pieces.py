"""Hands bytes over through a pipe in pieces: each is written when the one before was taken, so no read gets more than one piece."""

import fcntl
import os
import select
import sys
import termios


def hand_over(given, data, size):
    """Writes the data to the end of a pipe, so many bytes at a time, and closes it. Where nobody reads any more, the rest isn't written."""
    try:
        for start in range(0, len(data), size):
            os.write(given, data[start : start + size])
            wait_until_taken(given)
    except BrokenPipeError:
        pass
    os.close(given)


def wait_until_taken(given):
    """Waits until nothing is left in the pipe, or nobody reads it."""
    poll = select.poll()
    poll.register(given, 0)
    while int.from_bytes(fcntl.ioctl(given, termios.FIONREAD, bytes(4)), sys.byteorder) and not poll.poll(0):
        os.sched_yield()
