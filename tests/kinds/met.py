"""The kinds of calls that must come up. Each module of kinds is listed here, and says

    OPERATIONS       the operations whose calls it looks at
    kinds_of(call)   the kinds that such a call is of, with what it answers
    wanted()         the kinds that must come up
    told(kind)       a kind in words
"""

import causes
import comparisons
import editions
import shapes
import stored_keys
import windows
import written_sheets

MODULES = [causes, comparisons, shapes, windows, editions, written_sheets, stored_keys]


class Met:
    """What has come up."""

    def __init__(self):
        self.kinds = {module: set() for module in MODULES}

    def add(self, call):
        for module, met in self.kinds.items():
            if call.operation in module.OPERATIONS:
                met.update(module.kinds_of(call))

    def missing(self, wanted):
        """In words, of the kinds wanted of each module."""
        for module, kinds in wanted.items():
            found = self.kinds[module]
            yield from (module.told(kind) for kind in kinds if kind not in found)
