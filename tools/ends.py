"""The signals that tell a call to end."""
import signal

ENDS = (signal.SIGTERM, signal.SIGHUP, signal.SIGINT)


def at_end(call):
    """Has the first of these signals call this with its number. Those after it are ignored."""

    def end(number, _):
        for it in ENDS:
            signal.signal(it, signal.SIG_IGN)
        call(number)

    for it in ENDS:
        signal.signal(it, end)
