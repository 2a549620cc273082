; `seque` stands between a producer and a reader: a future goes on ahead of the reader, so many elements far.
(defn produce [n] (* n n))
(def produced (map produce (iterate inc 1)))

(def read-ahead (seque 3 produced))

; Nobody has read, and three elements are there.
(ledger)

(prn (first read-ahead))
(ledger)

; Each element that is read makes room for one more.
(prn (take 4 read-ahead))
(ledger)

; The producer's end is the reader's end.
(prn (seque 2 (map produce (list 7 8 9))))

; An error of the producer reaches the reader at its place.
(defn risky [n] (quot 100 (- 3 n)))
(def shaky (seque 2 (map risky (iterate inc 0))))
(prn (take 3 shaky))
(prn (nth shaky 3))

(prn (seque 0 produced))
