"""What comes of replays and plays, as values: connections, summaries, comparisons, sizes, margins, agreement.

Of one replay: `connections` follows those of users, `counting` makes the Summary of `summaries`, `timelines` what came
of it over time, `measures` (by `tallies`) only what many runs are compared by. Of several rulesets: `sides` replays
them over one trace, `comparisons` puts them together; `plays_beside` and `plays_measured` do so for a scenario. Of many
values: `sizes` varies one number, `maps` two (`grids` says which values are tried), `margins` each. Of one source or
record: `episodes`, `asking_anew`. Of a running pf: `agreements`, by `judging` and `explaining`. Of traffic as it comes:
`watching`.
"""
