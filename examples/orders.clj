; Orders of a shop, as vectors of a customer, an article and a price in cents; the report is a few pipelines over them.
(def orders
  [[:ann :tea 450] [:bob :cup 1200] [:ann :cup 1200] [:cid :tea 450]
   [:bob :pot 3900] [:ann :tea 450] [:cid :cup nil] [:dee :pot 3900]])

(defn who [order] (first order))
(defn what [order] (second order))
(defn price [order] (nth order 2))

; An order without a price isn't paid.
(def paid (filter price orders))
(prn (count paid))

; The sum of all, of one, and of each.
(prn (transduce (map price) + 0 paid))
(defn of? [customer order] (= customer (who order)))
(defn total [customer] (transduce (comp (filter (partial of? customer)) (map price)) + paid))
(prn (total :ann))
(prn (map (partial total) [:ann :bob :cid :dee]))

; Customers, each once, in the order in which they came: a reduction that looks before it adds.
(defn add-new [seen customer]
  (if (some (partial = customer) seen) seen (conj seen customer)))
(def customers (reduce add-new [] (map who orders)))
(prn customers)

; The best customer, as a pair.
(defn pair [customer] [customer (total customer)])
(defn richer [a b] (if (> (second b) (second a)) b a))
(prn (reduce richer (map pair customers)))

; Texts stand as they are.
(defn line [p] (list "customer" (first p) "cents" (second p)))
(prn (->> customers (map pair) (remove (comp (partial < 4000) second)) (map line)))

; What was ordered at least twice.
(defn times [article] (count (filter (comp (partial = article) what) orders)))
(prn (filter (comp (partial <= 3) times) (reduce add-new [] (map what orders))))
(ledger)
