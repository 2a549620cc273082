; A `def` that throws ends the run: the name would have no value. What was written before stays.
(def weights [3 5 8])
(prn (reduce + weights))

; This one is lazy, so it throws nothing yet.
(def ratios (map (partial quot 24) (list 3 0 8)))
(prn (first ratios))

; This one isn't.
(def worst (apply min ratios))
(prn :never)
