"""A model of the processor, its memory and its jobs, written from the pages in docs/ alone.

words.py  words and their bits
bus.py    memories, layers, the pile that jobs run on         (docs/BUS.md)
rows.py   the operation box and the rows, listed in rows.txt  (docs/CORE.md)
core.py   the processor, one cycle at a time                  (docs/CORE.md)
book.py   the instruction book, one step at a time            (docs/BOOK.md)
jobs.py   jobs, with core and book beside one another         (docs/JOBS.md)
cases.py  files of cases                                      (crates/runcases/data/README.md)
cover.py  what jobs cover
"""
