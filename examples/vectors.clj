; Vectors are values: adding to one leaves the other as it was.
(def base [1 2 3])
(def more (conj base 4 5))
(prn base)
(prn more)
(prn (conj base [4 5]))

; By index, with and without something for a missing one.
(prn (nth more 4))
(prn (nth more 5 :none))
(prn (nth more 5))
(prn (nth nil 5))

; A sequence over a vector costs nothing, and is no vector.
(prn (rest more))
(prn (vector? (rest more)))
(prn (conj (rest more) 9))
(prn (= (rest more) [2 3 4 5]))

; `into` and `vec` build one; `reverse` gives a list.
(prn (into [] (reverse more)))
(prn (vec (map inc more)))
(prn (reduce conj [] (list :a "b" nil true)))

; A vector in a vector is one deeper, and 256 is the end.
(prn (nth (iterate vector 0) 5))
(defn depth [v] (if (vector? v) (inc (depth (first v))) 0))
(prn (depth (nth (iterate vector 0) 255)))
(prn (count (nth (iterate vector 0) 256)))

; Long isn't deep: a hundred thousand numbers, one level.
(def many (into [] (range 100000)))
(prn (count many))
(prn (nth many 99999))
(prn (apply max (into [] (range 1000))))
