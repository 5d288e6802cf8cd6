"""Python's module `signal`, or the one below it, which has the same calls and comes in a third of the time."""
try:
    import _signal as signal
except ImportError:
    import signal  # noqa: F401
