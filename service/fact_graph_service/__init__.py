"""An interview service over the Fact Graph: many visitors, many workers, and no acknowledged answer lost.

`application` makes the ASGI application of `Settings`; `python -m fact_graph_service` isn't needed, since `fact-graph serve`
and any ASGI server start it.
"""

from .settings import Settings

__all__ = ["Settings"]
