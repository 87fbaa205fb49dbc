;;; tmhost-tests.el --- Tests of worksheets in Emacs  -*- lexical-binding: t; -*-

;;; Commentary:

;; Over the program that TMHOST names, with real interpreters.

;;; Code:

(require 'ert)
(require 'tmhost)

(defconst tmhost-tests-folder
  (file-name-directory (or load-file-name buffer-file-name))
  "The folder of the tests.")

(defconst tmhost-tests-file
  (or (getenv "TMHOST_TEST_INTERPRETER")
      (expand-file-name "../../repl/tests/interpreter.py" tmhost-tests-folder))
  "The file of an interpreter.")

(defconst tmhost-tests-interpreter (concat "python3 " tmhost-tests-file)
  "The words of an interpreter.")

(defconst tmhost-tests-python "tmhost-python"
  "The adapter of Python.")

(setq tmhost-talk-adapters
      (expand-file-name "../../../adapters/bin"
                        (file-name-directory tmhost-tests-file)))

(defun tmhost-tests-until (condition &optional what)
  "Wait for the function CONDITION to give true; WHAT is its name."
  (let ((until (+ (float-time) 120)))
    (while (not (funcall condition))
      (when (> (float-time) until)
        (error "This didn't come: %s in %s" what (tmhost-tests-text)))
      (accept-process-output nil 0.02))))

(defmacro tmhost-tests-with-sheet (path &rest body)
  "Do BODY in the buffer of a new worksheet, whose file is the variable PATH.
It has the session t, which completes."
  (declare (indent 1) (debug (symbolp body)))
  `(let* ((folder (make-temp-file "tmhost-emacs-test." t))
          (,path (expand-file-name "sheet" folder))
          (tmhost-save-delay nil))
     (unwind-protect
         (progn
           (tmhost-open ,path)
           (tmhost-new-session "t" tmhost-tests-interpreter t)
           (tmhost-tests-until (lambda () (tmhost-sheet-session "t")) "session")
           ,@body)
       (tmhost-tests-end ,path)
       (delete-directory folder t))))

(defun tmhost-tests-end (path)
  "End the worksheet at PATH, where it has a buffer."
  (let ((buffer (tmhost--buffer-of path)))
    (when buffer
      (let ((process (buffer-local-value 'tmhost-talk--process buffer)))
        (kill-buffer buffer)
        (tmhost-tests-until (lambda () (not (process-live-p process))) "end")))))

(defun tmhost-tests-again (path)
  "End the worksheet at PATH, and open it again."
  (tmhost-tests-end path)
  (tmhost-open path))

(defun tmhost-tests-new (&rest texts)
  "Make fields with TEXTS at the end, and give their numbers."
  (mapcar
   (lambda (text)
     (let ((count (length tmhost-view-order)))
       (goto-char (point-max))
       (tmhost-insert-after "t" text)
       (tmhost-tests-until (lambda () (> (length tmhost-view-order) count)) text)
       (car (last tmhost-view-order))))
   texts))

(defun tmhost-tests-at (id)
  "Go to the input of the field with number ID, and give the field."
  (tmhost--go-to id)
  (tmhost-view-field id))

(defun tmhost-tests-says (id text)
  "Wait until TEXT is said of the field with number ID."
  (tmhost-tests-until
   (lambda () (equal (tmhost-view-said (tmhost-view-field id)) text))
   (format "#%d %s" id text)))

(defun tmhost-tests-evaluate (id)
  "Evaluate the field with number ID, and give its output."
  (tmhost-tests-at id)
  (tmhost-evaluate)
  (tmhost-tests-says id "saved, answered")
  (tmhost-field-shown (tmhost-view-field id)))

(defun tmhost-tests-inputs ()
  "The inputs in the buffer, in their order."
  (mapcar (lambda (id) (tmhost-view-text (tmhost-view-field id)))
          tmhost-view-order))

(defun tmhost-tests-kept-at (id offset)
  "Whether point is OFFSET after the head of the field with number ID."
  (= (point) (+ (tmhost-view-head-end (tmhost-view-field id)) offset)))

(defun tmhost-tests-text ()
  "The text of the buffer."
  (substring-no-properties (buffer-string)))

;;; Texts

(ert-deftest tmhost-tests-texts ()
  "Characters that steer are written."
  (should (equal (tmhost-text-harmless "a\tb\nc \u00e9 \u200d")
                 "a\tb\nc \u00e9 \u200d"))
  (should (equal (tmhost-text-harmless "\e[31m\r\u009b\u202e\ufeff\U000e0041")
                 "\\x1b[31m\\x0d\\x9b\\u202e\\ufeff\\U000e0041"))
  (should (equal (tmhost-text-harmless
                  (tmhost-text-of '((base64 . "Y2Fm6Q=="))))
                 "caf\\xe9"))
  (should (equal (tmhost-text-harmless (propertize "a" 'invisible t)) "a"))
  (should (equal (tmhost-text-input "a\nb") "a\u2028b"))
  (should (equal (tmhost-text-lines "a\u2028b") "a\nb"))
  (should (equal (tmhost-field-input (tmhost-reported--read '((id . 1) (session . "a") (input . "a\nb\n") (state . "empty"))))
                 "a\u2028b\u2028"))
  (should (= (tmhost-text-bytes "a\u00e9\u2028") 6)))

(ert-deftest tmhost-pictures-are-reported-in-a-few-words ()
  (let* ((picture '((tag . "image/svg+xml") (kind . "format")
                    (items . ["<svg>\u0001\u00e9</svg>"])))
         (reported (lambda (shown &rest items)
                     (tmhost-text-shown
                      `((shown . ,shown)
                        (output (tag . "verbatim") (kind . "format")
                                (items . ,(apply #'vector items))))))))
    (should (equal (funcall reported "a\n{image/svg+xml:<svg>\\x01\u00e9</svg>}b"
                            "a\n" picture "b")
                   "a\n{image/svg+xml: 14 bytes}b"))
    (should (equal (funcall reported "{image/svg+xml:x}" "{image/svg+xml:x}")
                   "{image/svg+xml:x}"))
    (should (equal (funcall reported "none" picture) "none"))))

(ert-deftest tmhost-tests-json ()
  "Both readers of JSON give the same."
  (let ((line (concat "{\"a\":null,\"b\":[1,true,false,\"\\u0000\u00e9\"],"
                      "\"c\":[],\"d\":\"\\\\u0000\\\\\\u0000\\n\"}"))
        (parsed '((a) (b 1 t nil "\\x00\u00e9") (c)
                  (d . "\\u0000\\\\x00\n"))))
    (should (equal (tmhost-talk-parse line) parsed))
    (should (equal (tmhost-talk--parse-slowly (tmhost-talk--without-nul line))
                   parsed))))

;;; Fields

(ert-deftest tmhost-tests-answers ()
  "A field is made, evaluated and there again."
  (tmhost-tests-with-sheet path
    (should (equal (tmhost-tests-new "hello" "say two\\nlines") '(1 2)))
    (should (equal (tmhost-tests-text) "#1 t \n> hello\n\n#2 t \n> say two\\nlines\n\n"))
    (tmhost-tests-says 1 "saved")
    (should (equal (tmhost-tests-evaluate 1) "hello"))
    (should (equal (tmhost-tests-evaluate 2) "two\nlines"))
    (let ((text "#1 t \n1] hello\nhello\n\n#2 t \n2] say two\\nlines\ntwo\nlines\n\n"))
      (should (equal (tmhost-tests-text) text))
      (tmhost-tests-again path)
      (should (equal (tmhost-tests-text) text)))
    (tmhost-tests-says 1 "saved, answered")
    (should-not (buffer-modified-p))))

(ert-deftest tmhost-tests-errors ()
  "An answer that is an error says so, in words and by its face."
  (tmhost-tests-with-sheet path
    (let ((ids (tmhost-tests-new "error no way" "fine")))
      (tmhost-tests-at (car ids))
      (tmhost-evaluate)
      (tmhost-tests-says (car ids) "saved, answered by an error")
      (tmhost-tests-evaluate (cadr ids))
      (dolist (again '(nil t))
        (when again
          (tmhost-tests-again path)
          (tmhost-tests-says (car ids) "saved, answered by an error"))
        (goto-char (point-min))
        (search-forward "\nno way")
        (should (eq (get-text-property (1- (point)) 'font-lock-face)
                    'tmhost-error))
        (search-forward "\nfine")
        (should (eq (get-text-property (1- (point)) 'font-lock-face)
                    'tmhost-output))))))

(ert-deftest tmhost-tests-typing ()
  "An input is changed and saved, and the answer to its old text goes."
  (tmhost-tests-with-sheet path
    (tmhost-tests-new "one")
    (tmhost-tests-evaluate 1)
    (goto-char (tmhost-view-input-end (tmhost-tests-at 1)))
    (insert " more\n  lines")
    (tmhost-tests-says 1 "not saved")
    (should (buffer-modified-p))
    (tmhost-save)
    (tmhost-tests-says 1 "saved")
    (should-not (buffer-modified-p))
    (should (equal (tmhost-tests-text) "#1 t \n> one more\n  lines\n\n"))
    (delete-region (tmhost-view-head-end (tmhost-view-field 1))
                   (tmhost-view-input-end (tmhost-view-field 1)))
    (insert "x")
    (save-buffer)
    (tmhost-tests-again path)
    (should (equal (tmhost-tests-inputs) '("x")))))

(ert-deftest tmhost-tests-rest ()
  "A moment after the last change it is saved."
  (tmhost-tests-with-sheet path
    (tmhost-tests-new "one")
    (insert "!")
    (tmhost--rest (current-buffer))
    (should (equal (tmhost-view-said (tmhost-view-field 1)) "saving"))
    (insert "?")
    (tmhost-tests-says 1 "not saved")
    (tmhost--rest (current-buffer))
    (tmhost-tests-says 1 "saved")
    (tmhost-tests-again path)
    (should (equal (tmhost-tests-inputs) '("one!?")))))

(ert-deftest tmhost-tests-read-only ()
  "At no place but in an input can anything be typed or deleted."
  (tmhost-tests-with-sheet path
    (tmhost-tests-new "ab" "" "c")
    (tmhost-tests-evaluate 1)
    (tmhost-tests-evaluate 2)
    (let ((may-be nil))
      (dolist (id tmhost-view-order)
        (let ((field (tmhost-view-field id)))
          (push (cons (tmhost-view-head-end field) (tmhost-view-input-end field))
                may-be)))
      (cl-loop for position from (point-min) to (point-max)
               for is-input = (cl-some (lambda (place)
                                         (<= (car place) position (cdr place)))
                                       may-be)
               for before = (buffer-string)
               do (goto-char position)
               (if is-input
                   (progn (insert "x") (delete-char -1))
                 (should-error (insert "x") :type 'text-read-only)
                 (should-error (insert-and-inherit "x") :type 'text-read-only))
               (should (equal before (buffer-string))))
      (should-error (delete-region (point-min) (point-max))))))

(ert-deftest tmhost-tests-yanked-output ()
  "What is yanked into an input is text alone."
  (tmhost-tests-with-sheet path
    (tmhost-tests-new "one" "two")
    (tmhost-tests-evaluate 1)
    (let ((whole (buffer-substring (point-min) (point-max))))
      (tmhost-tests-at 2)
      (insert whole)
      (let ((begin (tmhost-view-head-end (tmhost-view-field 2))))
        (should-not (text-properties-at begin))
        (should (equal (tmhost-view-text (tmhost-view-field 2))
                       (concat (tmhost-text-input whole) "two")))))))

(ert-deftest tmhost-tests-order ()
  "Fields are inserted, moved and removed, here as in the worksheet."
  (tmhost-tests-with-sheet path
    (tmhost-tests-new "a" "b" "c")
    (tmhost-tests-at 2)
    (tmhost-insert-before "t" "before b")
    (tmhost-tests-until (lambda () (tmhost-view-field 4)) "before")
    (tmhost-tests-at 1)
    (tmhost-insert-before "t" "first")
    (tmhost-tests-until (lambda () (tmhost-view-field 5)) "first")
    (should (equal tmhost-view-order '(5 1 4 2 3)))
    (tmhost-tests-at 3)
    (tmhost-move-up)
    (tmhost-tests-until (lambda () (equal tmhost-view-order '(5 1 4 3 2))) "up")
    (should (eq (tmhost-view-field-at (point)) (tmhost-view-field 3)))
    (tmhost-tests-at 5)
    (tmhost-move-down)
    (tmhost-tests-until (lambda () (equal tmhost-view-order '(1 5 4 3 2))) "down")
    (tmhost-remove)
    (tmhost-tests-until (lambda () (equal tmhost-view-order '(1 4 3 2))) "remove")
    (should (equal (tmhost-tests-inputs) '("a" "before b" "c" "b")))
    (tmhost-tests-at 1)
    (should-error (tmhost-move-up) :type 'user-error)
    (let ((text (tmhost-tests-text)))
      (tmhost-tests-again path)
      (should (equal (tmhost-tests-text) text)))
    (mapc (lambda (id) (tmhost-tests-at id) (tmhost-remove)) '(1 2 3 4))
    (tmhost-tests-until (lambda () (null tmhost-view-order)) "empty")
    (should-error (insert "x"))))

(ert-deftest tmhost-tests-point ()
  "Point stays in the input in which it is, whatever comes meanwhile."
  (tmhost-tests-with-sheet path
    (tmhost-tests-new "say a\\nb" "two" "say c")
    (dolist (offset '(0 1 3))
      (tmhost-sheet-evaluate '(1 2 3))
      (goto-char (+ (tmhost-view-head-end (tmhost-view-field 2)) offset))
      (tmhost-tests-until
       (lambda () (should (tmhost-tests-kept-at 2 offset))
         (equal (tmhost-view-said (tmhost-view-field 3)) "saved, answered"))
       "answers")
      (tmhost-refresh)
      (tmhost-tests-until (lambda () tmhost--is-shown) "refresh")
      (should (tmhost-tests-kept-at 2 offset))
      (tmhost-sheet-evaluate '(1 3)))))

(ert-deftest tmhost-tests-undo ()
  "Undo takes back what was typed, also when answers came meanwhile."
  (tmhost-tests-with-sheet path
    (tmhost-tests-new "say a\\nb\\nc" "two")
    (buffer-enable-undo)
    (tmhost-tests-at 2)
    (undo-boundary)
    (insert "typed ")
    (undo-boundary)
    (tmhost-tests-at 1)
    (tmhost-evaluate)
    (tmhost-tests-says 1 "saved, answered")
    (tmhost-tests-new "three")
    (tmhost-tests-at 2)
    (should (equal (tmhost-tests-inputs) '("say a\\nb\\nc" "typed two" "three")))
    (undo)
    (should (equal (tmhost-tests-inputs) '("say a\\nb\\nc" "two" "three")))))

(ert-deftest tmhost-tests-narrowed ()
  "Answers are put in where a part of the buffer alone is seen."
  (tmhost-tests-with-sheet path
    (tmhost-tests-new "one" "two" "three")
    (tmhost-sheet-evaluate '(1 2 3))
    (narrow-to-region (tmhost-view-head-end (tmhost-view-field 2))
                      (tmhost-view-input-end (tmhost-view-field 2)))
    (insert "typed")
    (tmhost--rest (current-buffer))
    (tmhost-tests-until
     (lambda () (save-restriction
                  (widen)
                  (equal (tmhost-view-said (tmhost-view-field 3))
                         "saved, answered")))
     "answers")
    (should (string-prefix-p "twotyped" (tmhost-tests-text)))
    (widen)
    (should (equal (tmhost-field-shown (tmhost-view-field 3)) "three"))))

(ert-deftest tmhost-tests-typed-meanwhile ()
  "What is typed while the worksheet is reported again isn't lost."
  (tmhost-tests-with-sheet path
    (tmhost-tests-new "one" "two")
    (tmhost-refresh)
    (tmhost-tests-at 1)
    (insert "x")
    (tmhost-tests-until (lambda () tmhost--is-shown) "refresh")
    (should (equal (tmhost-tests-inputs) '("xone" "two")))
    (tmhost-tests-says 1 "not saved")
    (tmhost-save)
    (tmhost-tests-again path)
    (should (equal (tmhost-tests-inputs) '("xone" "two")))))

(ert-deftest tmhost-tests-refused ()
  "A text that no field can have stays in the buffer, and says so."
  (tmhost-tests-with-sheet path
    (tmhost-tests-new "one")
    (insert "\e")
    (tmhost-save)
    (tmhost-tests-says 1 "not saved: BadInput")
    (save-buffer)
    (should (buffer-modified-p))
    (tmhost-evaluate)
    (tmhost-tests-says 1 "not saved: BadInput")
    (delete-char -1)
    (tmhost-tests-says 1 "saved")
    (insert "\r")
    (tmhost-save)
    (tmhost-tests-says 1 "not saved: BadInput")))

(provide 'tmhost-tests)
;;; tmhost-tests.el ends here
