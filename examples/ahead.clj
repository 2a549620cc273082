; `pmap` starts calls ahead of its reader, as futures. Here the function is slow on purpose: it squares by adding.
(defn add [n sum k] (+ sum n))
(defn slow-square [n] (reduce (partial add n) 0 (range n)))
(def numbers (map inc (iterate inc 999)))

(def squares (pmap slow-square numbers))

; Nobody has asked for an answer yet, but two calls were started, for the first element and the one behind it, and both are done: a form
; ends only when its futures have.
(ledger)

; With four processors the reader is kept six calls ahead: those of seven elements are done once the first answer was read.
(prn (first squares))
(ledger)

; Each answer more starts one call more.
(prn (second squares))
(ledger)

(prn (take 5 squares))

; Over a range a whole chunk is started at once.
(def small (pmap inc (range 10)))
(ledger)
(prn small)
(ledger)
