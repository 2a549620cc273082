; Groups of equal size, as a lazy sequence and in a transducer.
(def names ["ada" "bo" "cy" "dee" "eve" "flo" "gus" "hal"])
(def tables (partition-all 3 names))

(prn (first tables))
(ledger)
(prn tables)
(ledger)

; The last group may be smaller. A transducer gives vectors, the sequence gives lists.
(prn (map count tables))
(prn (into [] (partition-all 3) names))

; A group that is cut off early is still handed on at the end.
(prn (into [] (comp (take 5) (partition-all 2)) names))

; Groups of groups: pages of two tables.
(prn (sequence (comp (partition-all 2) (partition-all 2)) names))

; Rows into columns.
(def rows (partition-all 3 (range 9)))
(prn rows)
(prn (apply map list rows))

; Run lengths over groups, with the number of the group in front.
(prn (map vector (range) (map (partial reduce +) (partition-all 4 (range 1 15)))))

; A group of less than one is refused when the word is called.
(prn (partition-all 0 names))
