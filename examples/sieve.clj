; A sieve: each prime removes its multiples from what is left. Nothing is computed before it is asked for.
(defn divides? [p n] (zero? (rem n p)))

(defn sieve [numbers]
  (lazy-seq
    (let [p (first numbers)]
      (cons p (sieve (remove (partial divides? p) (rest numbers)))))))

(def primes (sieve (iterate inc 2)))

; So far one part was made for the sieve and one for the numbers, and none was realised.
(ledger)

(prn (take 10 primes))
(prn (nth primes 20))
(prn (first (drop-while (partial > 50) primes)))

; 21 primes are known now. What was realised once isn't computed again: this only makes the parts of `take`.
(ledger)
(prn (reduce + (take 21 primes)))
(ledger)

; A test by division, by the known primes up to the root.
(defn goes-into? [n p] (divides? p n))
(defn in-question? [n p] (<= (* p p) n))
(defn prime? [n]
  (not (some (partial goes-into? n) (take-while (partial in-question? n) primes))))

(prn (filter prime? (range 5000 5100)))
(prn (count (filter prime? (range 2 500))))
