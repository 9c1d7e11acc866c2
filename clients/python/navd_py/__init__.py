"""A client of navd for projects in Python: graph files for all of Python, and questions about a folder.

Nothing in this package is proved. What navd answers over the graphs that it makes is.
"""

__version__ = "0.1.0"
