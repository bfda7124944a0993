"""The host of Bujerova: it answers, from this machine, what the proved program asks."""

__version__ = "0.1.0"
