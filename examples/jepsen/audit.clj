(ns audit
  "What `regaudit check` says of a history of Jepsen: reads and writes of one register, or of independent keys."
  (:require [clojure.edn :as edn]
            [clojure.java.io :as io]
            [clojure.java.shell :refer [sh]]))

(defn- write-forms [file forms]
  (io/make-parents file)
  (with-open [out (io/writer file)]
    (binding [*out* out, *print-length* nil, *print-level* nil]
      (run! prn forms))))

(defn- keep-said [file program & words]
  (let [{:keys [out err] :as said} (apply sh program words)]
    (spit file (str out err))
    said))

(defn audit
  "Writes the trace and the tower file of its keys to the folder, has them judged, and keeps the records beside them.
  Unless all holds and nothing was refused it keeps the page of what fails too.
  All that a client did is handed over: an operation that is neither read nor write is refused, and so it is counted.
  A register that fails is in doubt where that rests on what was refused; where each culprit is, nobody knows."
  [{:keys [program folder initial options] :or {program "regaudit"}} history]
  (let [names ["tower.edn" "trace.edn" "records.edn" "audit.html"]
        [tower-file trace kept page] (map #(str (io/file folder %)) names)
        ops (filter #(integer? (:process %)) history)
        at-first (if (= :unknown initial) "unknown" (pr-str initial))]
    (write-forms trace (map #(select-keys % [:process :type :f :value :index]) ops))
    (keep-said tower-file program "keys" (str "--initial=" at-first) trace)
    (let [words (concat ["check" "--as" "edn" "--tower" tower-file] options [trace])
          {:keys [exit out]} (apply keep-said kept program words)
          records (mapv edn/read-string (re-seq #"[^\n]+\n" out))
          fails (filter #(and (= :register (:t %)) (not (:holds %))) records)
          culprits (filter :culprit fails)
          failed (if (every? (comp seq :rests_on) culprits) :unknown false)]
      (when-not (zero? exit)
        (let [words (concat ["show" "--html" "--tower" tower-file] options [trace])]
          (when-let [drawn (not-empty (:out (apply sh program words)))]
            (spit page drawn))))
      {:valid? (if (= :end (:t (peek records))) (get {0 true, 1 failed} exit :unknown) :unknown)
       :status exit
       :culprits (mapv :name culprits)
       :fails (mapv #(select-keys % [:name :fault :rests_on]) fails)
       :refused (count (filter #(= :refused (:t %)) records))})))
