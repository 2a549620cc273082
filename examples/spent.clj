; Nothing is negative in here, so this search has no end. Each look makes parts, and the limit of cells ends the run, with status 4.
; The form that was at it writes nothing.
(def naturals (iterate inc 0))
(prn (take 3 naturals))
(prn (first (filter neg? naturals)))
(prn :never)
