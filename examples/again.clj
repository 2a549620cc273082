; An error is thrown to whoever asks, and it isn't kept by a lazy part: the next one who asks runs the work again.
(defn share [people] (quot 60 people))
(def shares (map share (list 3 2 1 0 5)))

; The elements of a list come one at a time, so what stands before the bad one can be read.
(prn (take 3 shares))
(prn (nth shares 2))
(ledger)

; The fourth part fails, twice: one attempt for each form that asks.
(prn (nth shares 3))
(prn (nth shares 4))
(ledger)

; Of a chunk nothing can be read if one call in it throws.
(def chunked (map share [3 2 1 0 5]))
(prn (first chunked))
(prn (count chunked))
(ledger)

; Whoever asks a part that fails fails too: here a filter over the map, and the form that asks it.
(def large (filter (partial < 20) shares))
(prn (first large))
(prn (second large))
(prn (nth large 2))
(prn (nth large 2))
(ledger)

; A future keeps its error: however often it is asked, it isn't run again.
(def ahead (pmap share (list 6 0)))
(prn (first ahead))
(prn (second ahead))
(prn (second ahead))
(ledger)
