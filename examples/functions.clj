; There are no anonymous functions: functions are named, or made of others.
(def add-five (partial + 5))
(def thrice (partial * 3))
(def both (comp thrice add-five))
(prn (both 1))
(prn (map both [0 1 2]))

(def odd-number? (complement even?))
(prn (remove odd-number? (range 10)))
(prn ((constantly :same) 1 2 3))

; Several bodies, by the number of arguments.
(defn power
  "The k-th power of n; the second without a k."
  ([n] (power n 2))
  ([n k] (if (zero? k) 1 (* n (power n (dec k))))))
(prn (power 9))
(prn (power 2 10))
(prn (power 1 2 3))

; What a function closes over is bound in front.
(defn between? [low high x] (and (<= low x) (< x high)))
(def teen? (partial between? 13 20))
(prn (filter teen? [12 13 19 20]))

; Threading, both ways.
(prn (-> 5 (- 2) inc vector))
(prn (->> (range 10) (filter teen?) empty?))

; Functions are written as what they are, and aren't compared.
(prn [inc both])
(prn (= inc inc))
(prn (every? fn? (list inc both teen? (map inc))))

; A local name may stand before a word.
(prn (let [count 3 first (inc count)] [count first]))
(prn (or nil false (when (pos? 1) :yes)))
