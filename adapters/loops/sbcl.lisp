;;; Evaluates lines for prompted.py: one in double quotes is a statement, with \n for its line ends, another one the halves of a marker.
(defpackage :tmhost (:use :cl))
(in-package :tmhost)

(defparameter *texts* '(:utf-8 :replacement #\?))
(defvar *commands* (sb-sys:make-fd-stream 3 :input t :buffering :full :external-format *texts*))
(defvar *own* (sb-sys:make-fd-stream 1 :output t :buffering :full :external-format *texts*))
(defvar *works* nil)

(defun unescaped (text)
  (with-output-to-string (said)
    (loop with at = 0 while (< at (length text))
          do (let ((is-escaped (char= (char text at) #\\)))
               (when is-escaped (incf at))
               (write-char (if (and is-escaped (char= (char text at) #\n)) #\Newline (char text at)) said)
               (incf at)))))

;; What is said of the end of a text, or of the empty input, names a stream by its address.
(defun described (condition)
  (typecase condition
    (sb-sys:interactive-interrupt "interrupted")
    (sb-int:simple-reader-error (apply #'format nil (simple-condition-format-control condition) (simple-condition-format-arguments condition)))
    (end-of-file (if (eq *works* :reads) "the form isn't complete" "end of file"))
    (t (princ-to-string condition))))

(defun ended-by (condition)
  (fresh-line *own*)
  (format *own* "~A~S: ~A~%" (sb-ext:posix-getenv "TMHOST_ERROR") (type-of condition) (described condition)))

;; What comes to the debugger ends the line; between lines an interrupt is nothing.
(defun in-place-of-debugger (condition hook)
  (declare (ignore hook))
  (cond ((not (eq sb-thread:*current-thread* (sb-thread:main-thread))) (sb-thread:abort-thread))
        (*works* (ended-by condition) (throw 'line nil))
        (t (continue condition))))

(defun shown (values)
  (setf *** ** ** * * (first values) /// // // / / values)
  (fresh-line)
  (format t "~{~S~%~}" values))

(defun evaluate (form)
  (setf *works* :evaluates +++ ++ ++ + + - - form)
  (shown (multiple-value-list (eval form))))

(defun answer (text)
  (catch 'line
    (with-input-from-string (forms text)
      (loop with end = (list nil)
            for form = (progn (setf *works* :reads) (read forms nil end))
            until (eq form end) do (evaluate form))))
  (setf *works* nil))

(defun answer-lines ()
  (setf sb-sys:*stdout* *own* sb-sys:*stderr* *own*
        *terminal-io* (make-two-way-stream sb-sys:*stdin* *own*)
        sb-ext:*invoke-debugger-hook* #'in-place-of-debugger)
  (loop for line = (read-line *commands* nil) while line
        do (if (and (plusp (length line)) (char= (char line 0) #\"))
               (answer (unescaped (subseq line 1 (1- (length line)))))
               (format *own* "~&~A~%" (remove #\Space line :count 1)))
           (finish-output *own*))
  (sb-ext:exit :abort t))
