"""What takes long, told while it runs."""
import contextlib
import threading
import time


@contextlib.contextmanager
def told(say, pause):
    """Calls `say` with the seconds that have passed, every so many seconds, until the block ends."""
    ended, started = threading.Event(), time.time()

    def tell():
        while not ended.wait(pause):
            say(int(time.time() - started))

    teller = threading.Thread(target=tell, daemon=True)
    teller.start()
    try:
        yield
    finally:
        ended.set()
        teller.join()
