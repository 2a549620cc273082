; `iterate` follows a function from a beginning; the whole orbit is a value of which as much is computed as somebody reads.
(defn collatz [n] (if (even? n) (quot n 2) (inc (* 3 n))))

(def path (iterate collatz 27))
(prn (take 12 path))
(ledger)

; How far to 1, and how high on the way.
(def down (take-while (partial < 1) path))
(prn (count down))
(prn (reduce max down))

; The longest of several orbits.
(defn length-of [n] (count (take-while (partial < 1) (iterate collatz n))))
(defn longer [best n]
  (let [l (length-of n)]
    (if (> l (second best)) [n l] best)))
(prn (reduce longer [1 0] (range 1 30)))

; Greatest common divisor: pairs until the second is zero.
(defn euclid [pair] [(second pair) (rem (first pair) (second pair))])
(defn done? [pair] (zero? (second pair)))
(defn gcd [a b] (first (first (drop-while (complement done?) (iterate euclid [a b])))))
(prn (gcd 1071 462))
(prn (gcd 17 5))

; A root by Newton, until it stops to fall.
(defn better [n x] (quot (+ x (quot n x)) 2))
(defn falls? [pair] (> (first pair) (second pair)))
(defn root [n]
  (let [guesses (iterate (partial better n) n)]
    (first (first (drop-while falls? (map vector guesses (rest guesses)))))))
(prn (map root [1 2 16 99 100 1000000]))

; Powers of two, up to the last that 64 bits hold.
(def powers (iterate (partial * 2) 1))
(prn (nth powers 62))
(prn (nth powers 63))
