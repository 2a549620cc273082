; Why one `first` realises 32 elements: a range hands out chunks, and `map` and `filter` work on a chunk whole.
(def mapped (map inc (range 100)))
(prn (first mapped))
(ledger)

; The 33rd element is in the next chunk.
(prn (nth mapped 31))
(ledger)
(prn (nth mapped 32))
(ledger)

; Chunks count from where the range begins, and what is left of a chunk stays one.
(def cut (map inc (drop 30 (range 100))))
(prn (first cut))
(ledger)

; `iterate`, `cons` and a user's `lazy-seq` give one element at a time, and so does `take`.
(def single (map inc (iterate inc 0)))
(prn (first single))
(ledger)

(defn one-by-one [c]
  (lazy-seq (when (seq c) (cons (first c) (one-by-one (rest c))))))
(def slowly (map inc (one-by-one (range 100))))
(prn (first slowly))
(ledger)

; A filter that keeps nothing of a chunk goes on to the next one.
(def late (filter (partial < 90) (range 100)))
(prn (first late))
(ledger)
