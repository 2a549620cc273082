; `incr` isn't a word of the language, and a script that is refused isn't run.
(prn (reduce + (range 10)))
(prn (reduce + (map incr (range 10))))
