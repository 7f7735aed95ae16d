"""The parts of `scripts/report`.

`reading` runs `crpd` and reads its texts; `program` follows the code of a task; `windows` sums windows up again; `facts`
gathers what a page shows; `cautions` and `advice` put warnings, verdicts and refusals into words; `markup` makes elements,
`pictures` and `runs` draw, and `page` puts all together. `shapes.css` has the colours and shapes of pictures, `page.css` the
rest of a page's style.
"""
