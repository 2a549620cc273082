; One level of brackets less: `mapcat`, `concat`, and `cat` in a transducer.
(def orders [[:tea 2 :cup] [] [:bread 1] [:plum 4 :plum]])

(prn (mapcat identity orders))
(prn (into [] cat orders))
(prn (sequence (comp cat (filter keyword?)) orders))

; Each line of an order repeated as often as it says.
(defn lines [n] (repeat n n))
(prn (mapcat lines (range 5)))

; `sequence` works ahead up to 32 outputs; nothing is asked before the first element is.
(def flat (sequence (comp (map lines) cat) (range)))
(ledger)
(prn (first flat))
(ledger)
(prn (nth flat 40))
(ledger)

; `mapcat` calls its function once for what is asked, and no more.
(def few (mapcat lines (iterate inc 1)))
(prn (first few))
(ledger)
(prn (take 6 few))
(ledger)

; A `take` in the middle of a collection ends the whole.
(prn (transduce (comp cat (take 4)) conj [] orders))
(prn (concat [1 2] nil (list 3) () (range 4 6)))
