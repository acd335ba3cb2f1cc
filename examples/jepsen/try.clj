; Tries audit.clj without Jepsen, in this folder: clojure try.clj FOLDER. What is handed over and said goes to FOLDER.
; The program is that of the environment variable REGAUDIT, or the regaudit of the PATH.
(load-file "audit.clj")

(defn history [& ops]
  (map-indexed (fn [index [process type f value]] {:index index :process process :type type :f f :value value}) ops))

(def a-write [[0 :invoke :write [7 1]]
              [0 :ok :write [7 1]]])

(defn a-read [value]
  [[1 :invoke :read [7 nil]]
   [1 :ok :read [7 value]]])

(def two-writes (concat a-write [[:nemesis :info :start nil]
                                 [0 :invoke :write [7 2]]
                                 [0 :ok :write [7 2]]]))

(def runs
  [["correct" (concat two-writes (a-read 2))]
   ["stale read" (concat two-writes (a-read 1))]
   ["timed out" (concat a-write [[0 :invoke :write [7 2]] [0 :info :write [7 2]]] (a-read 2))]
   ["compare-and-set" (concat a-write [[0 :invoke :cas [7 [1 2]]] [0 :ok :cas [7 [1 2]]]] (a-read 1))]
   ["rests on a compare-and-set" (concat a-write [[0 :invoke :cas [7 [1 2]]] [0 :ok :cas [7 [1 2]]]] (a-read 2))]
   ["rests on a value written twice" (concat two-writes a-write (a-read 1))]
   ["one register" [[0 :invoke :write 1] [0 :ok :write 1] [1 :invoke :read nil] [1 :ok :read 1]]]
   ["faulty words" a-write ["--moment" "never"]]])

(doseq [[name ops options] runs]
  (println name (pr-str (dissoc (audit/audit {:program (or (System/getenv "REGAUDIT") "regaudit")
                                              :folder (str (first *command-line-args*) "/" name)
                                              :options options}
                                             (apply history ops))
                                :fails))))
(shutdown-agents)
