"""How long a test of random inputs goes on: so many seconds, and further where some kind of answer has not come yet, as on a busy machine."""
import time

MOST_SECONDS = 300


def turns(seconds, is_complete):
    """One turn after the other. `is_complete` says whether each kind of answer has come."""
    began = time.monotonic()
    while True:
        passed = time.monotonic() - began
        if passed >= MOST_SECONDS or passed >= seconds and is_complete():
            return
        yield
