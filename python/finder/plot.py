"""Pictures of windows and of sets of times. They need matplotlib; `curve` does not."""

from .drawing.plot import Points, around, curve, timeline

__all__ = ["Points", "around", "curve", "timeline"]
