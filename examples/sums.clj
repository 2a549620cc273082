; Several forms, however they are written: each writes the sum of its list.
(prn (reduce + (range 10)))

(prn (->> (range 100)
          (map inc)
          (take 3)
          (reduce +)))
