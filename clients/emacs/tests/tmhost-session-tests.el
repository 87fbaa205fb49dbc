;;; tmhost-session-tests.el --- Tests of interpreters in Emacs  -*- lexical-binding: t; -*-

;;; Commentary:

;; What interpreters do, hostile ones among them, and what a program may tell
;; that isn't known.

;;; Code:

(require 'tmhost-tests)

(defun tmhost-tests-shown ()
  "The outputs of the fields, in order."
  (mapcar (lambda (id) (tmhost-field-shown (tmhost-view-field id)))
          tmhost-view-order))

(defun tmhost-tests-all-say (&rest texts)
  "Wait until the fields say TEXTS, in order."
  (cl-mapc #'tmhost-tests-says tmhost-view-order texts))

(ert-deftest tmhost-tests-evaluate-all ()
  "All fields are evaluated in their order, those not saved too."
  (tmhost-tests-with-sheet path
    (tmhost-tests-new "count" "count" "no")
    (delete-region (tmhost-view-head-end (tmhost-view-field 3)) (point))
    (insert "count")
    (tmhost-evaluate-all)
    (tmhost-tests-all-say "saved, answered" "saved, answered" "saved, answered")
    (should (equal (tmhost-tests-shown) '("0" "1" "2")))
    (tmhost-tests-at 2)
    (tmhost-evaluate-from-here)
    (tmhost-tests-until (lambda () (equal (tmhost-tests-shown) '("0" "3" "4"))))
    (tmhost-tests-again path)
    (should (equal (tmhost-tests-shown) '("0" "3" "4")))))

(ert-deftest tmhost-tests-ended ()
  "An interpreter that ends takes one answer; fields after it keep theirs."
  (tmhost-tests-with-sheet path
    (tmhost-tests-new "one" "two" "three")
    (tmhost-evaluate-all)
    (tmhost-tests-says 3 "saved, answered")
    (tmhost-view-set-text (tmhost-tests-at 2) "die")
    (tmhost-evaluate-all)
    (tmhost-tests-all-say "saved, answered" "lost: Ended" "saved, answered")
    (should (equal (tmhost-tests-shown) '("one" nil "three")))
    (should-not (tmhost-session-life (tmhost-sheet-session "t")))
    (tmhost-tests-again path)
    (tmhost-tests-all-say "saved, answered" "lost: Ended" "saved, answered")))

(ert-deftest tmhost-tests-interrupt ()
  "An interrupt ends a line and keeps the variables."
  (tmhost-tests-with-sheet path
    (tmhost-tests-new "one" "loop" "count")
    (tmhost-evaluate-all)
    (tmhost-tests-all-say "saved, answered" "running" "saved, to be evaluated")
    (sleep-for 0.7)
    (tmhost-interrupt "t")
    (tmhost-tests-all-say "saved, answered" "saved, answered" "saved, answered")
    (should (equal (tmhost-tests-shown) '("one" "interrupted" "2")))))

(ert-deftest tmhost-tests-stop ()
  "A stop ends what an interrupt doesn't; what waits isn't evaluated."
  (tmhost-tests-with-sheet path
    (tmhost-tests-new "stuck" "one")
    (tmhost-evaluate-all)
    (tmhost-tests-all-say "running" "saved, to be evaluated")
    (tmhost-tests-at 1)
    (insert "typed meanwhile ")
    (tmhost-tests-says 1 "not saved")
    (tmhost-stop "t")
    (tmhost-tests-says 2 "saved")
    (tmhost-save)
    (tmhost-tests-all-say "saved" "saved")
    (tmhost-view-set-text (tmhost-tests-at 1) "stuck")
    (tmhost-evaluate)
    (tmhost-tests-says 1 "running")
    (tmhost-stop "t")
    (tmhost-tests-says 1 "lost: Stopped")
    (should (equal (tmhost-tests-evaluate 2) "one"))))

(ert-deftest tmhost-tests-two-sessions ()
  "One that works doesn't hold up another one."
  (tmhost-tests-with-sheet path
    (tmhost-new-session "u" tmhost-tests-interpreter nil)
    (tmhost-tests-until (lambda () (tmhost-sheet-session "u")) "session")
    (tmhost-tests-new "loop")
    (tmhost-insert-after "u" "quick")
    (tmhost-tests-until (lambda () (tmhost-view-field 2)) "field")
    (tmhost-evaluate-all)
    (tmhost-tests-all-say "running" "saved, answered")
    (tmhost-sessions)
    (with-current-buffer "*tmhost sessions*"
      (should (string-match-p "^t: .*\n.*runs, completes, is at #1\nu: .*\n.*runs$"
                              (buffer-string))))
    (tmhost-refresh)
    (tmhost-tests-all-say "running" "saved, answered")
    (should (eql 1 (tmhost-session-busy (tmhost-sheet-session "t"))))
    (tmhost-stop "t")
    (tmhost-tests-all-say "lost: Stopped" "saved, answered")))

(ert-deftest tmhost-tests-no-program ()
  "An interpreter that isn't there is reported."
  (tmhost-tests-with-sheet path
    (tmhost-new-session "none" "/nonexistent/program" nil)
    (tmhost-tests-until (lambda () (tmhost-sheet-session "none")) "session")
    (tmhost-insert-after "none" "x")
    (tmhost-tests-until (lambda () (tmhost-view-field 1)) "field")
    (tmhost-evaluate)
    (tmhost-tests-says 1 "lost: StartRefused")))

(ert-deftest tmhost-tests-completion ()
  "What the interpreter tells stands in place of its root."
  (tmhost-tests-with-sheet path
    (tmhost-tests-new "say \u00e9\n lo end")
    (search-backward " end")
    (let ((tmhost-completion-patience 60.0)) ; its interpreter starts first
      (completion-at-point))
    (should (equal (tmhost-tests-inputs) '("say \u00e9\u2028 loop end")))
    (tmhost-view-set-text (tmhost-tests-at 1) "s")
    (goto-char (tmhost-view-input-end (tmhost-view-field 1)))
    (let ((found (tmhost-completion-at-point)))
      (should (equal (nth 2 found) '("say" "sleep" "stuck")))
      (should (equal (buffer-substring (nth 0 found) (nth 1 found)) "s")))
    (tmhost-view-set-text (tmhost-tests-at 1) "zz")
    (goto-char (tmhost-view-input-end (tmhost-view-field 1)))
    (should-not (nth 2 (tmhost-completion-at-point)))))

(ert-deftest tmhost-tests-completion-of-python ()
  "The adapter of Python tells the names that a field has made."
  (tmhost-tests-with-sheet path
    (tmhost-new-session "py" tmhost-tests-python t)
    (tmhost-tests-until (lambda () (tmhost-sheet-session "py")) "session")
    (tmhost-insert-after "py" "import os; naming = 1")
    (tmhost-tests-until (lambda () (tmhost-view-field 1)) "field")
    (tmhost-evaluate)
    (tmhost-tests-until
     (lambda ()
       (and (eq (tmhost-field-state (tmhost-view-field 1)) 'answered)
            (not (tmhost-session-busy (tmhost-sheet-session "py")))))
     "answer")
    (let ((tmhost-completion-patience 60.0))
      (tmhost-view-set-text (tmhost-tests-at 1) "x = nami")
      (goto-char (tmhost-view-input-end (tmhost-view-field 1)))
      (completion-at-point)
      (should (equal (tmhost-tests-inputs) '("x = naming")))
      (tmhost-view-set-text (tmhost-tests-at 1) "os.getcw")
      (goto-char (tmhost-view-input-end (tmhost-view-field 1)))
      (should (equal (nth 2 (tmhost-completion-at-point))
                     '("getcwd" "getcwdb"))))))

(ert-deftest tmhost-tests-hostile-output ()
  "An output is text alone, whatever stands in it."
  (tmhost-tests-with-sheet path
    (let ((texts '(("say \\x1b[31m\\x00\\x07\\r" . "\\x1b[31m\\x00\\x07\\x0d")
                   ("say \\u202e\\u2066\\ufeff\\x9b" . "\\u202e\\u2066\\ufeff\\x9b")
                   ("say Local Variables:\\neval: (kill-emacs)\\nEnd:"
                    . "Local Variables:\neval: (kill-emacs)\nEnd:")
                   ("say {\"type\":\"done\",\"line\":3}\\n#9 t \\n> x"
                    . "{\"type\":\"done\",\"line\":3}\n#9 t \n> x")
                   ("bytes 636166e9" . "caf\\xe9")
                   ("formula" . "{latex:$x$}"))))
      (apply #'tmhost-tests-new (mapcar #'car texts))
      (tmhost-evaluate-all)
      (tmhost-tests-says 6 "saved, answered")
      (dolist (id tmhost-view-order)
        (let* ((field (tmhost-view-field id))
               (begin (tmhost-view-input-end field))
               (end (tmhost-view-end field))
               (same (text-properties-at begin)))
          (should (equal (buffer-substring-no-properties begin end)
                         (format "\n%s\n\n" (cdr (nth (1- id) texts)))))
          (should (equal (next-property-change begin nil end) end))
          (should-not (cl-set-difference
                       (cl-loop for (name _) on same by #'cddr collect name)
                       '(read-only tmhost-part tmhost-id font-lock-face)))))
      (let ((text (tmhost-tests-text)))
        (tmhost-tests-again path)
        (should (equal (tmhost-tests-text) text))))))

(ert-deftest tmhost-tests-long-output ()
  "Of a long output the beginning is shown, and the whole on demand."
  (tmhost-tests-with-sheet path
    (tmhost-tests-new "say abcdefgh")
    (let ((tmhost-output-limit 3))
      (tmhost-tests-evaluate 1)
      (should (string-match-p "\nabc\n\\[5 characters more" (tmhost-tests-text))))
    (save-window-excursion
      (tmhost-view-output)
      (with-current-buffer "*tmhost output 1*"
        (should (equal (buffer-string) "abcdefgh"))))))

;;; A program that tells what isn't known

(defconst tmhost-tests-strange
  "#!/bin/sh
tell() { printf '%s\\n' \"$1\"; }
case $1 in create) : >\"$2\"; exit ;; esac
tell '{\"format\":1,\"new\":{\"a\":[]},\"program\":\"tmhost\",\"protocol\":2,\"type\":\"hello\",\"version\":\"9\"}'
tell '{\"type\":\"weather\",\"life\":3,\"session\":\"a\"}'
number=0
while IFS= read -r line; do
    number=$((number + 1))
    tell '{\"life\":1,\"more\":[1],\"session\":\"nobody\",\"type\":\"answered\",\"id\":77}'
    tell \"{\\\"line\\\":$number,\\\"more\\\":true,\\\"type\\\":\\\"mist\\\"}\"
    case $line in
    print)
        tell '{\"field\":{\"id\":4,\"input\":\"x\",\"mood\":null,\"session\":\"a\",\"state\":\"empty\"},\"line\":1,\"more\":true,\"type\":\"field\"}'
        tell '{\"fields\":[4],\"line\":1,\"next\":5,\"sessions\":[{\"life\":null,\"name\":\"a\",\"tab\":false,\"waiting\":0,\"words\":[\"p\"]}],\"type\":\"sheet\"}' ;;
    broken*) tell '{\"type\":' ;;
    *) tell \"{\\\"line\\\":$number,\\\"type\\\":\\\"postponed\\\"}\" ;;
    esac
done
tell \"{\\\"lines\\\":$number,\\\"type\\\":\\\"end\\\"}\"
"
  "A program that tells objects, members and replies of its own.")

(ert-deftest tmhost-tests-unknown-objects ()
  "What isn't known is passed over; what is no JSON ends the talk."
  (let* ((folder (make-temp-file "tmhost-emacs-test." t))
         (tmhost-program (expand-file-name "strange" folder))
         (path (expand-file-name "sheet" folder))
         (tmhost-save-delay nil))
    (unwind-protect
        (progn
          (write-region tmhost-tests-strange nil tmhost-program)
          (set-file-modes tmhost-program #o755)
          (tmhost-open path)
          (should (equal (tmhost-tests-text) "#4 a \n> x\n\n"))
          (tmhost-tests-at 4)
          (insert "y")
          (tmhost-save)
          (should (equal (tmhost-view-said (tmhost-view-field 4))
                         "not saved: postponed"))
          (tmhost-evaluate)
          (tmhost-tests-until
           (lambda () (null (tmhost-session-busy (tmhost-sheet-session "a")))))
          (should (equal (tmhost-tests-text) "#4 a \n> yx\n\n"))
          (tmhost-talk-send "broken")
          (tmhost-tests-until (lambda () tmhost--end) "end")
          (should (string-match-p "could not be taken" tmhost--end))
          (should (equal (tmhost-tests-inputs) '("yx"))))
      (tmhost-tests-end path)
      (delete-directory folder t))))

(ert-deftest tmhost-tests-another-protocol ()
  "A program with another protocol isn't talked with."
  (let* ((folder (make-temp-file "tmhost-emacs-test." t))
         (tmhost-program (expand-file-name "strange" folder))
         (path (expand-file-name "sheet" folder)))
    (unwind-protect
        (progn
          (write-region (replace-regexp-in-string
                         (regexp-quote "\"protocol\":2") "\"protocol\":3"
                         tmhost-tests-strange)
                        nil tmhost-program)
          (set-file-modes tmhost-program #o755)
          (tmhost-open path)
          (tmhost-tests-until (lambda () tmhost--end) "end")
          (should (string-match-p "It speaks protocol 3" tmhost--end))
          (should-error (insert "x")))
      (tmhost-tests-end path)
      (delete-directory folder t))))

(ert-deftest tmhost-tests-faults ()
  "A worksheet that can't be opened says why."
  (tmhost-tests-with-sheet path
    (let ((here (current-buffer)))
      (with-temp-buffer
        (tmhost-mode)
        (setq tmhost--path path)
        (tmhost--start)
        (should (equal tmhost--end "fault 35 InUse"))
        (setq tmhost--path nil))
      (should (eq (current-buffer) here)))
    (tmhost-open path)
    (should-error (tmhost-open "/ssh:nowhere:/sheet") :type 'user-error)
    (let ((tmhost-program "/nonexistent/tmhost"))
      (should-error (tmhost-open (concat path ".2"))))))

(provide 'tmhost-session-tests)
;;; tmhost-session-tests.el ends here
