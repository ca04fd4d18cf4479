"""What leaks, grown, holders, held and sizes share: how dumps and reports are read, how heapmark runs, what objects
take in the heap, and the search for holders."""

from heap_tools.version import VERSION

__all__ = ["VERSION"]
