; Endless streams, each cut by whoever reads it.
(defn digits [n] (if (< n 10) (list n) (cons (rem n 10) (digits (quot n 10)))))
(defn sum-of-digits [n] (reduce + (digits n)))

(def squares (map * (iterate inc 1) (iterate inc 1)))
(prn (take-while (partial > 200) squares))

; `take-while` looks at one element more than it gives.
(ledger)

; Squares whose digits come to a multiple of 9, up to a bound.
(defn nine? [n] (zero? (rem (sum-of-digits n) 9)))
(prn (->> squares
          (filter nine?)
          (take-while (partial > 5000))
          (map sum-of-digits)))

; Fibonacci numbers by a lazy part that names itself through its function.
(defn fibonacci [a b] (lazy-seq (cons a (fibonacci b (+ a b)))))
(def fibs (fibonacci 0 1))
(prn (reduce + (filter even? (take-while (partial > 4000000) fibs))))
(prn (last (take 90 fibs)))

; A stream of letters that repeats, beside one that counts.
(prn (take 7 (map vector (range) (cycle [:low :mid :high]))))

; The 64 bits end, and only whoever goes so far learns of it. A part also adds for the one behind it, so the last one that can be read
; comes two before the last one that fits.
(prn (nth fibs 90))
(prn (nth fibs 91))
(prn (nth fibs 90))
