"""Where the vehicles of a live fleet are, and which roads they drove.

`fmm track` takes a feed (`fmm.feed`) and hands its rows to `fmm streams`, which it keeps running. It writes an object for each
position that is settled, for each drive that ends, and, marked as provisional, for the newest position of each vehicle. The
state file of the feed has the rows of all open drives, too. So after a restart each drive goes on where it was.
"""
