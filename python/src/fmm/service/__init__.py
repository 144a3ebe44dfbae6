"""A service over HTTP: match and nearest as OSRM answers them, and matches of whole files.

One process accepts requests (`app`, `pool`). It forwards each to one of several workers (`worker`), each of which has a proved
program with the network loaded (`program`). A process that has the network loaded forks the workers (`forks`), so that they
share its memory and a lost one is replaced at once.
"""
