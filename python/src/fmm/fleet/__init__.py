"""Matches a fleet in groups of traces, on one machine or a cluster.

`match_fleet` groups the traces of a file by place, so that the rows of each group fit in the memory of a job, matches each group
by `fmm_large match`, and joins the texts. The result is the text of one run, except for the `rows` of its total line.
"""
from .call import Call, match_fleet

__all__ = ["Call", "match_fleet"]
