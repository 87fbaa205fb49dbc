;;; tmhost-kill-tests.el --- Kills at random moments  -*- lexical-binding: t; -*-

;;; Commentary:

;; The program, or Emacs, is ended by signal 9 while it works.  What the buffer
;; called saved or answered until then is on the disk.  TMHOST_KILLS says how
;; many kills of each kind are made.

;;; Code:

(require 'tmhost-tests)

(defconst tmhost-tests-kills
  (string-to-number (or (getenv "TMHOST_KILLS") "12"))
  "How many kills of each kind are made.")

(defconst tmhost-tests-rest
  (default-value 'tmhost-save-delay)
  "Seconds after which what was typed is saved.")

(defun tmhost-tests-disk (path)
  "The fields of the worksheet at PATH, in order, as they are on the disk.
A program that still holds it is waited for."
  (let (fields)
    (tmhost-tests-until
     (lambda ()
       (with-temp-buffer
         (let ((coding-system-for-read 'utf-8-unix))
           (call-process-region "print\n" nil tmhost-program nil '(t nil) nil
                                "live" "--json" path))
         (let ((objects (mapcar #'tmhost-talk-parse
                                (split-string (buffer-string) "\n" t))))
           (setq fields (delq nil (mapcar (lambda (object)
                                            (alist-get 'field object))
                                          objects)))
           (equal (alist-get 'type (car (last objects))) "end")))))
    fields))

(defun tmhost-tests-claim (field)
  "The text and output of FIELD by the buffer; nil where it isn't saved."
  (let ((said (tmhost-view-said field)))
    (cond ((equal said "saved")
           (list (tmhost-view-text field) nil))
          ((equal said "saved, answered")
           (list (tmhost-view-text field) (tmhost-field-shown field))))))

(defun tmhost-tests-hold (claims disk)
  "Check that each of CLAIMS, numbers with texts and outputs, stands in DISK."
  (pcase-dolist (`(,id ,text ,shown) claims)
    (let ((field (cl-find id disk :key (lambda (it) (alist-get 'id it)))))
      (should field)
      (should (equal text (alist-get 'input field)))
      (should (equal shown (alist-get 'shown field))))))

(defun tmhost-tests-step ()
  "Do something at random, and wait for nothing."
  (let ((id (and tmhost-view-order
                 (nth (random (length tmhost-view-order)) tmhost-view-order))))
    (pcase (random 5)
      ((or 0 1)
       (tmhost--insert (or id 0) "t" (format "say %d\\nx" (random 1000))))
      (2 (when id
           (goto-char (tmhost-view-input-end (tmhost-tests-at id)))
           (insert (format "%d" (random 10)))))
      (3 (when id
           (tmhost-sheet-save (tmhost-tests-at id))))
      (_ (when id
           (tmhost-tests-at id)
           (tmhost-evaluate))))))

(ert-deftest tmhost-tests-killed-program ()
  "What the buffer called saved or answered when the program was killed is there.
What it didn't is saved when the program was started again."
  (let ((count 0))
    (dotimes (_ tmhost-tests-kills)
      (tmhost-tests-with-sheet path
        (let ((until (+ (float-time) 0.2 (/ (random 1000) 1000.0))))
          (while (< (float-time) until)
            (tmhost-tests-step)
            (accept-process-output nil 0.01)))
        (signal-process tmhost-talk--process 9)
        (tmhost-tests-until (lambda () tmhost--end) "end")
        (let ((claims (cl-loop for id in tmhost-view-order
                               for claim = (tmhost-tests-claim
                                            (tmhost-view-field id))
                               when claim collect (cons id claim)))
              (disk (tmhost-tests-disk path))
              (order tmhost-view-order)
              (texts (tmhost-tests-inputs)))
          (tmhost-tests-hold claims disk)
          (should (equal order (cl-remove-if-not
                                (lambda (id) (memql id order))
                                (mapcar (lambda (it) (alist-get 'id it)) disk))))
          (setq count (+ count (length claims)))
          (tmhost-reopen)
          (should (equal texts (mapcar (lambda (id)
                                         (tmhost-view-text (tmhost-view-field id)))
                                       order)))
          (tmhost-save)
          (should-not (tmhost-sheet-unsaved)))))
    (message "%d kills of the program: %d fields were called saved, all there"
             tmhost-tests-kills count)
    (should (>= count tmhost-tests-kills))))

(defun tmhost-tests-victim ()
  "Work on the worksheet of the first word, until this Emacs is killed.
The file of the second word gets what the buffer claims, and what of that is
about to be changed."
  (let ((log (cadr command-line-args-left)) (said nil) (tmhost-save-delay nil)
        (inhibit-message t))
    (cl-flet ((tell (value)
                (write-region (format "%S\n" value) nil log t 'quiet)))
      (tmhost-open (car command-line-args-left))
      (while t
        (dolist (id tmhost-view-order)
          (let ((claim (tmhost-tests-claim (tmhost-view-field id))))
            (unless (equal claim (alist-get id said))
              (setf (alist-get id said) claim)
              (when claim
                (tell (cons id claim))))))
        (when tmhost-view-order
          ;; Whatever the next step changes isn't claimed any more.
          (let ((id (nth (random (length tmhost-view-order)) tmhost-view-order)))
            (tell (list id))
            (setf (alist-get id said) nil)
            (goto-char (tmhost-view-input-end (tmhost-tests-at id)))
            (pcase (random 3)
              (0 (insert "y") (tmhost-sheet-save (tmhost-view-field id)))
              (1 (tmhost-evaluate)))))
        (when (< (length tmhost-view-order) 30)
          (tmhost--insert 0 "t" (format "say %d" (random 1000))))
        (accept-process-output nil 0.02)))))

(defun tmhost-tests-claims-in (log)
  "What the file LOG claims last, of each field that it names."
  (let ((claims nil))
    (with-temp-buffer
      (insert-file-contents log)
      ;; A last line without its end may not be whole.
      (dolist (line (butlast (split-string (buffer-string) "\n")))
        (let ((value (read line)))
          (setf (alist-get (car value) claims) (cdr value)))))
    (cl-remove-if-not #'cdr claims)))

(ert-deftest tmhost-tests-killed-emacs ()
  "What the buffer of a killed Emacs called saved or answered is there."
  (let ((count 0))
    (dotimes (_ tmhost-tests-kills)
      (tmhost-tests-with-sheet path
        (tmhost-tests-end path)
        (let* ((log (concat path ".log"))
               (libraries (file-name-directory (locate-library "tmhost")))
               (victim (make-process
                        :name "victim" :noquery t :connection-type 'pipe
                        :command (list (expand-file-name invocation-name
                                                         invocation-directory)
                                       "-Q" "--batch" "-L" libraries
                                       "-L" tmhost-tests-folder
                                       "-l" "tmhost-kill-tests"
                                       "-f" "tmhost-tests-victim" path log))))
          (tmhost-tests-until (lambda () (file-exists-p log)) "victim")
          (sleep-for (/ (random 1000) 1000.0))
          (should (process-live-p victim))
          (signal-process victim 9)
          (tmhost-tests-until (lambda () (not (process-live-p victim))) "kill")
          (let ((claims (tmhost-tests-claims-in log)))
            (tmhost-tests-hold claims (tmhost-tests-disk path))
            (setq count (+ count (length claims)))))))
    (message "%d kills of Emacs: %d fields were called saved, all there"
             tmhost-tests-kills count)
    (should (>= count tmhost-tests-kills))))

(ert-deftest tmhost-tests-at-a-terminal ()
  "What is typed into an Emacs at a terminal is saved a moment later."
  (tmhost-tests-with-sheet path
    (tmhost-tests-end path)
    (let* ((shown "")
           (open (format "(progn (setq native-comp-deferred-compilation nil)
                            (require 'tmhost) (setq tmhost-program %S)
                            (tmhost-open %S))"
                         tmhost-program path))
           (process-environment (cons "TERM=xterm" process-environment))
           (emacs (make-process
                   :name "emacs" :noquery t :connection-type 'pty
                   :filter (lambda (_ text) (setq shown (concat shown text)))
                   :command (list (expand-file-name invocation-name
                                                    invocation-directory)
                                  "-Q" "-nw" "-L" (file-name-directory
                                                   (locate-library "tmhost"))
                                  "--eval" open))))
      (set-process-window-size emacs 40 100)
      (cl-flet ((types-until (keys text)
                  (setq shown "")
                  (process-send-string emacs keys)
                  (tmhost-tests-until (lambda () (string-match-p text shown))
                                      (concat text " in " shown))))
        (tmhost-tests-until (lambda () (string-match-p "no fields" shown)) "open")
        (types-until "\C-c\C-j" "#1 t")
        (types-until "say one" "1 not saved")
        (types-until "" "saved")
        (types-until "\C-c\C-c" "answered")
        (types-until "\C-c\C-jtwo" "2 t")
        (sleep-for (* 2 tmhost-tests-rest)))
      (signal-process emacs 9)
      (should (equal (mapcar (lambda (it) (list (alist-get 'input it)
                                                (alist-get 'shown it)))
                             (tmhost-tests-disk path))
                     '(("say one" "one") ("two" nil)))))))

;;; Random work

(defun tmhost-tests-work ()
  "Do something that a user may do, at random."
  (let ((id (nth (random (max 1 (length tmhost-view-order))) tmhost-view-order)))
    (if (null id)
        (tmhost-insert-after "t" "first")
      (tmhost-tests-at id)
      (goto-char (+ (point) (random (1+ (- (tmhost-view-input-end
                                            (tmhost-view-field id))
                                           (point))))))
      (pcase (random 12)
        (0 (tmhost-insert-after "t" "say a\\nb"))
        (1 (tmhost-insert-before "t" "x\ny"))
        (2 (tmhost-evaluate))
        (3 (tmhost-evaluate-all))
        (4 (ignore-errors (tmhost-move-up)))
        (5 (ignore-errors (tmhost-move-down)))
        (6 (when (> (length tmhost-view-order) 4) (tmhost-remove)))
        (7 (tmhost-refresh))
        (8 (ignore-errors (undo-boundary) (undo)))
        (9 (ignore-errors (delete-char (if (zerop (random 2)) 1 -1))))
        (10 (tmhost--rest (current-buffer)))
        (_ (undo-boundary) (insert (nth (random 4) '("k" "l\n" "\u00e9" "say "))))))))

(defun tmhost-tests-is-whole ()
  "Check that the buffer has the fields in their order, and nothing else."
  (let ((place (point-min)))
    (dolist (id tmhost-view-order)
      (let ((field (tmhost-view-field id)))
        (should (= place (tmhost-field-place field)))
        (should (string-prefix-p (format "#%d t \n" id)
                                 (buffer-substring-no-properties
                                  place (tmhost-view-head-end field))))
        (should (string-suffix-p (tmhost-view--tail field)
                                 (buffer-substring-no-properties
                                  (tmhost-view-input-end field)
                                  (tmhost-view-end field))))
        (should-not (text-property-not-all (tmhost-view-head-end field)
                                           (tmhost-view-input-end field)
                                           'read-only nil))
        (should (or (tmhost-sheet-is-saved field)
                    (memql id tmhost-sheet--changed)))
        (setq place (tmhost-view-end field))))
    (should (= place (point-max)))))

(ert-deftest tmhost-tests-random ()
  "Whatever is done, the buffer is whole, and ends as the worksheet does."
  (random "tmhost")
  (dotimes (_ tmhost-tests-kills)
    (tmhost-tests-with-sheet path
      (buffer-enable-undo)
      (dotimes (_ 60)
        (tmhost-tests-work)
        (accept-process-output nil 0.005)
        (tmhost-tests-is-whole))
      (tmhost-tests-until
       (lambda ()
         (and tmhost--is-shown
              (cl-notany #'tmhost-session-busy tmhost-sheet-sessions)))
       "rest")
      (tmhost-save)
      (tmhost-tests-is-whole)
      (let ((fields (mapcar (lambda (id)
                              (let ((field (tmhost-view-field id)))
                                (list id (tmhost-view-text field)
                                      (tmhost-field-shown field))))
                            tmhost-view-order)))
        (tmhost-tests-end path)
        (should (equal fields
                       (mapcar (lambda (it) (list (alist-get 'id it)
                                                  (tmhost-text-input (alist-get 'input it))
                                                  (alist-get 'shown it)))
                               (tmhost-tests-disk path))))))))

(provide 'tmhost-kill-tests)
;;; tmhost-kill-tests.el ends here
