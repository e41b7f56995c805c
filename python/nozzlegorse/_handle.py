"""What holds something of the library's."""
from __future__ import annotations

from . import _library as c
from .faults import Fault, done


class Handle:
    """What a handle holds is freed by `close`, at the end of a `with`, and when it is collected. After that each call raises a
    `Fault` of kind 'closed'. It isn't copied, and threads may share it."""

    _of = ""

    def __new__(cls, *_, **__):
        self = super().__new__(cls)
        self._handle, self._is_open = c.structs[cls._of](), False
        return self

    def _open(self, *rest, by: str = "open") -> None:
        self.close()
        done(getattr(c.lib, f"nzg_{self._of}_{by}")(self._handle, *rest))
        self._is_open = True

    def _open_handle(self):
        if not self._is_open:
            raise Fault("closed")
        return self._handle

    def _call(self, name: str, *rest):
        return getattr(c.lib, f"nzg_{self._of}_{name}")(self._open_handle(), *rest)

    def close(self) -> None:
        """Frees what is held. Nothing happens where nothing is."""
        self._is_open = False
        getattr(c.lib, f"nzg_{self._of}_close")(self._handle)

    def __enter__(self):
        return self

    def __exit__(self, *_):
        self.close()

    def __del__(self):
        self.close()

    def __copy__(self, *_):
        raise TypeError(f"a {type(self).__name__} isn't copied")

    __deepcopy__ = __reduce__ = __copy__

    def __repr__(self) -> str:
        return f"<{type(self).__name__}{'' if self._is_open else ', closed'}>"
