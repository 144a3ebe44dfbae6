"""An endless feed of positions, as rows for `fmm streams`.

A feed reads reports of vehicles from standard input or from an MQTT broker. It keeps its state in one SQLite file: which number
each vehicle has, its last time, and the reports that wait to be put in order. A report is acknowledged to the broker when the
state has it. So a report is neither lost nor written twice if the feed is killed and started again.
"""
