; Work without parts is ended by the limit of own steps: each evaluation has a million of its own.
(defn count-up [n] (if (< n 1000) (count-up (inc n)) n))
(prn (count-up 0))

; A reduction takes two steps an element, the visit and the call, so 600,000 elements are too many for one evaluation.
(prn (reduce + (range 400000)))
(prn (reduce + (range 600000)))

; The steps of a part are its own: split into parts, the same work is done.
(defn part [k] (reduce + (range (* k 100000) (* (inc k) 100000))))
(prn (part 3))
(defn one-at-a-time [k] (lazy-seq (cons (part k) (one-at-a-time (inc k)))))
(prn (reduce + (take 10 (one-at-a-time 0))))

; A function that calls itself takes its steps too, here three a turn: its own call, and those of `<` and `inc`.
(prn (count-up -400000))
(prn :on)
