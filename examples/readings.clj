; Readings of a sensor, in tenths of a degree: bad ones are dropped, the rest is looked at in groups of four.
(def readings [201 203 -999 202 204 198 -999 250 251 249 252 205 204 -999 203])

(defn valid? [x] (> x -273))
(defn spread [group] (- (reduce max group) (reduce min group)))
(defn steady? [group] (< (spread group) 10))
(defn mean [group] (quot (reduce + group) (count group)))

; One transducer says it all; it knows neither where readings come from nor where the groups go.
(def checked (comp (filter valid?) (partition-all 4)))

(prn (into [] checked readings))

; What a group has to say: its mean, and whether it was steady.
(defn report [group] [(mean group) (if (steady? group) :steady :unsteady)])

(prn (into [] (comp checked (map report)) readings))

; The same transducer, another end: only the steady groups are counted.
(defn count-one [n group] (inc n))
(prn (transduce (comp checked (filter steady?)) (completing count-one) 0 readings))

; The first group that isn't steady. What comes after it isn't read, so the failing reading at the end does no harm.
(defn parsed [x] (if (= x :noise) (quot x 0) x))
(def noisy (conj readings :noise))
(prn (first (into [] (comp (map parsed) checked (remove steady?) (take 1)) noisy)))
(prn (count (into [] (comp (map parsed) checked) noisy)))
