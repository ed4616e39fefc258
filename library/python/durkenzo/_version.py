"""The version, of which tools/version sees that it is that of the file VERSION; a wheel has its own."""
__version__ = "0.1.0"
