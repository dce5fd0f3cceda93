"""A compiler driver that passes the compiler's listing to `peep`, and keeps the new object where its code is smaller.

`command` is the command line, `words` reads the compiler's arguments, `settings` the driver's settings; `listing` splits a listing into functions, `splice`
passes them to `peep` and puts the result back; `program` runs `peep`, `tables` reads and writes its tables, `choice` selects their entries, `raising` makes
families; `recipe` rewrites by several tables in turn, `unit` does all this for one object, and `report` reports on it.
"""
