;;; tmhost-talk.el --- A talk with tmhost live --json  -*- lexical-binding: t; -*-

;;; Commentary:

;; The program takes lines and writes objects, a line each (docs/use/JSON.md).  An
;; object with a `line' is about the line with this number; others are reported of
;; interpreters.  A talk belongs to the buffer in which it was started.

;;; Code:

(require 'json)
(require 'subr-x)

(declare-function json-parse-string "json.c" (string &rest args))

(defgroup tmhost nil
  "Worksheets of tmhost."
  :group 'tools)

(defcustom tmhost-program (or (getenv "TMHOST") "tmhost")
  "The program tmhost."
  :type 'string
  :group 'tmhost)

(defvar tmhost-talk-adapters
  (expand-file-name "../../adapters/bin"
                    (file-name-directory (or load-file-name buffer-file-name
                                             default-directory)))
  "The folder of the adapters' commands, where it lies beside that of this file.")

(defconst tmhost-talk-protocol 2
  "The version of the protocol that is understood.")

(defvar-local tmhost-talk--process nil
  "The program of this buffer.")
(defvar-local tmhost-talk--sent 0
  "How many lines were sent.")
(defvar-local tmhost-talk--awaited nil
  "A hash table from numbers of lines to what their replies are given to.")
(defvar-local tmhost-talk--pieces nil
  "The beginning of a line that isn't whole, in pieces, the last one first.")
(defvar-local tmhost-talk--lines nil
  "Lines that came and aren't taken yet.")
(defvar-local tmhost-talk--is-taking nil
  "Whether lines are being taken.")
(defvar-local tmhost-talk--reported nil
  "What was reported of the end of the program: a string.")
(defvar-local tmhost-talk--is-over t
  "Whether there is no program, or its end was reported.")
(defvar-local tmhost-talk-handler #'ignore
  "A function that is given each object that ends no line.")
(defvar-local tmhost-talk-ended #'ignore
  "A function that is called with a string, how the program ended.")

(defun tmhost-talk--without-nul (line)
  "LINE, a JSON text, with `\\x00' in place of the character 0.
Some of Emacs's readers refuse that character."
  (if (string-match-p (regexp-quote "\\u0000") line)
      (replace-regexp-in-string
       (rx "\\" (or "u0000" nonl))
       (lambda (escape) (if (equal escape "\\u0000") "\\\\x00" escape))
       line t t)
    line))

(defun tmhost-talk--parse-slowly (text)
  "As `tmhost-talk-parse' of TEXT, for an Emacs without a reader in C."
  (let ((json-object-type 'alist) (json-array-type 'list)
        (json-key-type 'symbol) (json-null nil) (json-false nil))
    (json-read-from-string text)))

(defun tmhost-talk-parse (line)
  "The value of LINE, a JSON text: objects are alists, null and false are nil."
  (let ((text (tmhost-talk--without-nul line)))
    (if (fboundp 'json-parse-string)
        (json-parse-string text :object-type 'alist :array-type 'list
                           :null-object nil :false-object nil)
      (tmhost-talk--parse-slowly text))))

(defun tmhost-talk-is-live ()
  "Whether the program of this buffer is running."
  (process-live-p tmhost-talk--process))

(defun tmhost-talk--environment ()
  "The environment of the program, in whose PATH the adapters come first."
  (if (file-directory-p tmhost-talk-adapters)
      (cons (concat "PATH=" tmhost-talk-adapters path-separator (getenv "PATH"))
            process-environment)
    process-environment))

(defun tmhost-talk-start (path)
  "Start a talk of this buffer about the worksheet at PATH."
  (unless (executable-find tmhost-program)
    (user-error "There is no program %s: set tmhost-program" tmhost-program))
  (setq tmhost-talk--sent 0
        tmhost-talk--awaited (make-hash-table)
        tmhost-talk--pieces nil
        tmhost-talk--lines nil
        tmhost-talk--reported nil
        tmhost-talk--is-over nil)
  (let* ((buffer (current-buffer))
         (errors (generate-new-buffer " *tmhost errors*"))
         (process-environment (tmhost-talk--environment))
         (process
          (make-process
           :name "tmhost" :buffer nil :stderr errors :connection-type 'pipe
           :command (list tmhost-program "live" "--json" (expand-file-name path))
           :coding 'utf-8-unix :noquery t
           :filter (lambda (process text)
                     (tmhost-talk--filter buffer process text))
           :sentinel (lambda (process _)
                       (tmhost-talk--sentinel buffer process errors)))))
    (set-process-sentinel (get-buffer-process errors) #'ignore)
    (set-process-query-on-exit-flag (get-buffer-process errors) nil)
    (setq tmhost-talk--process process)))

(defun tmhost-talk-send (line &optional taker)
  "Send LINE; TAKER is a function that is given the object that ends it."
  (when tmhost-talk--is-over
    (user-error "The program tmhost has ended: M-x tmhost-reopen starts it"))
  (when (string-match-p "\n" line)
    (error "More than one line: %s" line))
  (setq tmhost-talk--sent (1+ tmhost-talk--sent))
  (when taker
    (puthash tmhost-talk--sent taker tmhost-talk--awaited))
  ;; One carriage return in front of a line feed is dropped by the program.
  (let ((end (if (string-suffix-p "\r" line) "\r\n" "\n")))
    ;; Where it has just ended, and what it wrote is still being taken, the
    ;; sentinel tells that when all was taken.
    (ignore-errors
      (process-send-string tmhost-talk--process (concat line end)))))

(defun tmhost-talk-close ()
  "End the input of the program, which then ends."
  (when (tmhost-talk-is-live)
    (ignore-errors
      (process-send-eof tmhost-talk--process))))

(defun tmhost-talk-is-replied ()
  "Whether each line that was sent has its reply."
  (zerop (hash-table-count tmhost-talk--awaited)))

(defun tmhost-talk-wait (condition seconds)
  "Wait for the function CONDITION to give true, SECONDS at most.
Where the program ends, wait until that is reported.
Give what CONDITION gave last."
  (let ((until (+ (float-time) seconds)) (reported (funcall condition)))
    (while (and (not reported) (not tmhost-talk--is-over) (< (float-time) until))
      ;; The end is reported when what stands in the other pipe was read, too.
      (accept-process-output (and (tmhost-talk-is-live) tmhost-talk--process)
                             0.05)
      (setq reported (funcall condition)))
    reported))

(defun tmhost-talk--filter (buffer process text)
  "Take TEXT, which PROCESS wrote, in BUFFER.
To send a line may let more text come meanwhile: that waits for its turn."
  (when (buffer-live-p buffer)
    (with-current-buffer buffer
      (when (eq process tmhost-talk--process)
        (tmhost-talk--cut text)
        (unless tmhost-talk--is-taking
          (let ((tmhost-talk--is-taking t))
            (save-restriction
              (widen)
              (while tmhost-talk--lines
                (tmhost-talk--take (pop tmhost-talk--lines))))))))))

(defun tmhost-talk--cut (text)
  "Cut TEXT into lines; the last one without its end is kept."
  (push text tmhost-talk--pieces)
  (when (string-match-p "\n" text)
    (let ((parts (split-string (apply #'concat (nreverse tmhost-talk--pieces))
                               "\n")))
      (setq tmhost-talk--pieces (last parts)
            tmhost-talk--lines (append tmhost-talk--lines (butlast parts))))))

(defun tmhost-talk--take (line)
  "Take LINE.  Where it can't be taken, nothing is relied on any more."
  (condition-case problem
      (tmhost-talk--dispatch (tmhost-talk-parse line))
    (error
     (setq tmhost-talk--lines nil
           tmhost-talk--reported
           (format "what it wrote could not be taken: %s"
                   (error-message-string problem)))
     (delete-process tmhost-talk--process))))

(defun tmhost-talk--dispatch (object)
  "Give OBJECT to the one that it is for."
  (let ((line (alist-get 'line object)))
    (cond
     ((and line (not (alist-get 'more object)))
      (let ((taker (gethash line tmhost-talk--awaited)))
        (remhash line tmhost-talk--awaited)
        (when taker
          (funcall taker object))))
     ((equal (alist-get 'type object) "fault")
      (setq tmhost-talk--reported (format "fault %s %s" (alist-get 'number object)
                                          (alist-get 'name object))))
     ((and (equal (alist-get 'type object) "hello")
           (not (equal (alist-get 'protocol object) tmhost-talk-protocol)))
      (error "It speaks protocol %s" (alist-get 'protocol object)))
     (t (funcall tmhost-talk-handler object)))))

(defun tmhost-talk--sentinel (buffer process errors)
  "Tell BUFFER that PROCESS has ended, with what stands in the buffer ERRORS.
It may be called once more, when that was reported."
  (unless (or (process-live-p process) (not (buffer-live-p errors)))
    (let ((text (with-current-buffer errors (string-trim (buffer-string)))))
      (kill-buffer errors)
      (when (buffer-live-p buffer)
        (with-current-buffer buffer
          (when (eq process tmhost-talk--process)
            (clrhash tmhost-talk--awaited)
            (setq tmhost-talk--is-over t)
            (save-restriction
              (widen)
              (funcall tmhost-talk-ended
                       (or tmhost-talk--reported
                           (and (not (string-empty-p text)) text)
                           (format "%s %s" (process-status process)
                                   (process-exit-status process)))))))))))

(provide 'tmhost-talk)
;;; tmhost-talk.el ends here
