; A sliding window without indices: the series beside itself, once and twice shifted.
(def prices [100 103 101 108 112 111 109 115 120 118])

(defn mean-of-three [a b c] (quot (+ a b c) 3))
(def smooth (map mean-of-three prices (rest prices) (rest (rest prices))))
(prn smooth)

; `map` over several collections goes one element at a time, also over a vector, and ends with the shortest.
(def changes (map - (rest prices) prices))
(prn (first changes))
(ledger)
(prn changes)

; Each change with the day on which it came: the days don't end, the changes do.
(def days (iterate inc 2))
(prn (map vector days changes))

; The longest run of growth so far, carried along by a reduction.
(defn longer [state change]
  (let [run (if (pos? change) (inc (first state)) 0)]
    [run (max run (second state))]))
(prn (second (reduce longer [0 0] changes)))

; Peaks: higher than both neighbours.
(defn peak [before here after] (when (and (> here before) (> here after)) here))
(prn (keep identity (map peak prices (rest prices) (rest (rest prices)))))

(prn (map list [1 2 3] (cycle [:a :b]) (repeat nil)))
(ledger)
