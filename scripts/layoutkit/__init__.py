"""The parts of `scripts/layout`.

`placement` has functions in an order, and how it is changed; `linker` writes a placement into a linker script and links it;
`taskset` reads what is needed of a set; `judge` has `crpd` say what the linked file is worth; `search` looks for a better one;
`follow` has `scripts/loops` look at the loops; `work` is the whole way; `telling` puts the outcome into words. `gains` measures
the table of the guide. Nothing here knows how windows come about: the program decides.
"""
