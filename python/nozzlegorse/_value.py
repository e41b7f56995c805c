"""Values with named fields. The standard library's dataclasses do the same, and thirteen of them take two thirds of an import."""
from __future__ import annotations


def new(kind):
    """The default of a field that is made anew for each value."""
    return kind


class Value:
    """A value whose annotations are its fields: equal to one of its class with equal fields, and never changed."""

    _compared: tuple[str, ...] = ()
    # Fields in which equal values may differ.
    _free: tuple[str, ...] = ()
    __match_args__: tuple[str, ...] = ()

    def __init_subclass__(cls):
        own = tuple(name for name in cls.__dict__.get("__annotations__", ()) if name not in cls.__match_args__)
        cls.__match_args__ += own
        cls._compared = tuple(name for name in cls.__match_args__ if name not in cls._free)

    def __init__(self, *values, **named):
        fields = self.__dict__
        fields.update(zip(self.__match_args__, values))
        if len(values) > len(self.__match_args__) or not named.keys() <= set(self.__match_args__[len(values):]):
            raise TypeError(f"{type(self).__name__} has {', '.join(self.__match_args__)}")
        fields.update(named)
        for name in self.__match_args__[len(values):]:
            if name not in fields:
                fields[name] = self._default(name)
        self.__post_init__()

    def __post_init__(self):
        """What a class checks of its fields."""

    def _default(self, name):
        try:
            it = getattr(type(self), name)
        except AttributeError:
            raise TypeError(f"{type(self).__name__} needs {name}") from None
        return it() if isinstance(it, type) else it

    def _key(self):
        return tuple(self.__dict__[name] for name in self._compared)

    def __eq__(self, other):
        return self._key() == other._key() if type(other) is type(self) else NotImplemented

    def __hash__(self):
        return hash(self._key())

    def __setattr__(self, name, value):
        raise AttributeError(f"cannot assign to field {name!r}")

    def __delattr__(self, name):
        raise AttributeError(f"cannot delete field {name!r}")

    def __repr__(self):
        return f"{type(self).__qualname__}({', '.join(f'{name}={self.__dict__[name]!r}' for name in self.__match_args__ if name[0] != '_')})"
