; `r/fold` cuts a vector in halves down to groups, reduces the groups, and combines what they come to.
(def v (vec (range 1 1001)))

; For a function that doesn't mind where the brackets are, it is the reduction.
(prn (reduce + v))
(prn (r/fold + v))

; Groups of 512, so 1000 numbers make two groups, and the second one was a future.
(ledger)

(prn (r/fold 100 + + v))
; Down to groups of 100 it takes 16 groups of 62 or 63, all but the first of them futures.
(ledger)

; For subtraction the brackets matter.
(prn (reduce - 0 [1 2 3 4]))
(defn nothing [] 0)
(prn (r/fold 1 (r/monoid - nothing) - [1 2 3 4]))
(prn (r/fold 2 (r/monoid - nothing) - [1 2 3 4]))
(prn (r/fold 4 (r/monoid - nothing) - [1 2 3 4]))

; How a fold is cut, shown by building it: lists of what each group saw.
(defn note [seen x] (conj seen x))
(defn both ([] []) ([a b] [a b]))
(prn (r/fold 2 both note [1 2 3 4 5 6 7]))

; The greatest of a vector needs something to begin with, which `r/monoid` gives.
(defn least [] -1)
(prn (r/fold (r/monoid max least) (vec (map (partial * 7) (range 10)))))

; What is no vector is reduced.
(prn (r/fold + (range 1 1001)))
(prn (r/fold + []))
(ledger)
