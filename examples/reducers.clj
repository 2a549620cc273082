; Reducers name what happens to each element on its way into a reduction. They make no parts, and nothing runs before they are reduced.
(def numbers (vec (range 1 2001)))
(def wanted (r/filter even? (r/map (partial * 3) numbers)))

(prn wanted)
(ledger)

(prn (reduce + 0 wanted))
(ledger)

; The same over a fold: four groups of 500, three futures.
(prn (r/fold + wanted))
(ledger)

; Beside it the lazy way, which makes parts: one of the map and one of the filter for each 32 numbers, and one of each for the end.
(prn (reduce + 0 (filter even? (map (partial * 3) numbers))))
(ledger)

; `into` reduces too.
(prn (into [] (r/take 5 wanted)))
(prn (into () (r/take-while (partial > 30) wanted)))

; The stage nearest the collection comes first.
(prn (into [] (r/take 3 (r/remove odd? numbers))))
(prn (into [] (r/remove odd? (r/take 3 numbers))))

(defn twice [x] [x x])
(prn (into [] (r/mapcat twice (r/take 3 numbers))))

; `r/take` can't be cut in halves, so such a fold is one reduction.
(prn (r/fold + (r/take 10 numbers)))
(ledger)
