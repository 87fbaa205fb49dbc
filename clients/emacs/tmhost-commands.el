;;; tmhost-commands.el --- Commands of worksheets  -*- lexical-binding: t; -*-

;;; Commentary:

;; What the keys of `tmhost-mode' do.

;;; Code:

(require 'cl-lib)
(require 'tmhost-talk)
(require 'tmhost-text)
(require 'tmhost-view)
(require 'tmhost-sheet)
(require 'tmhost-reported)

(defvar tmhost-patience)
(defvar tmhost-completion-patience)
(declare-function tmhost--lock "tmhost" ())

(defun tmhost--field ()
  "The field at point."
  (or (tmhost-view-field-at (point)) (user-error "No field here")))

(defun tmhost--id ()
  "The number of the field at point."
  (tmhost-field-id (tmhost--field)))

;;; Evaluation

(defun tmhost-evaluate ()
  "Evaluate the field at point."
  (interactive)
  (tmhost-sheet-evaluate (list (tmhost--id))))

(defun tmhost-evaluate-all ()
  "Evaluate all fields, those of a session one after another."
  (interactive)
  (tmhost-sheet-evaluate (copy-sequence tmhost-view-order)))

(defun tmhost-evaluate-from-here ()
  "Evaluate the field at point and those after it."
  (interactive)
  (tmhost-sheet-evaluate (copy-sequence (memql (tmhost--id)
                                               tmhost-view-order))))

(defun tmhost--session-name ()
  "The session of the field at point, or one that the user names."
  (let ((field (tmhost-view-field-at (point)))
        (names (mapcar #'tmhost-session-name tmhost-sheet-sessions)))
    (cond (field (tmhost-field-session field))
          ((null names) (call-interactively #'tmhost-new-session))
          ((null (cdr names)) (car names))
          (t (completing-read "Session: " names nil t)))))

(defun tmhost-interrupt (name)
  "Interrupt what the interpreter of the session NAME is at."
  (interactive (list (tmhost--session-name)))
  (tmhost-talk-send (format "interrupt %s" name)
                    (lambda (reply)
                      (message "Interrupt: %s"
                               (or (alist-get 'outcome reply)
                                   (tmhost-sheet-refusal reply))))))

(defun tmhost-stop (name)
  "Stop the interpreter of the session NAME; its variables go."
  (interactive (list (tmhost--session-name)))
  (tmhost-talk-send
   (format "stop %s" name)
   (lambda (reply)
     (if (equal (alist-get 'type reply) "stopped")
         (tmhost-reported-ended (tmhost-sheet-session name) "Stopped"
                                (alist-get 'lost reply))
       (message "Stop: %s" (tmhost-sheet-refusal reply))))))

;;; Fields

(defun tmhost--await ()
  "Wait for the replies, so that the next key is typed into what they change."
  (unless (tmhost-talk-wait #'tmhost-talk-is-replied tmhost-patience)
    (message "tmhost hasn't replied yet")))

(defun tmhost--insert (after name text)
  "Make a field with TEXT in the session NAME, after the number AFTER.
It is shown when the program has reported that it is made, and point goes to it."
  (let ((input (tmhost-text-input text)))
    (tmhost-talk-send
     (format "new %d %s %s" after name input)
     (lambda (reply)
       (let ((id (alist-get 'id reply)))
         (if (not (equal (alist-get 'type reply) "made"))
             (message "No field was made: %s" (tmhost-sheet-refusal reply))
           (tmhost-view-add (tmhost-field-make :id id :session name :input input
                                               :state 'empty)
                            after)
           (tmhost-sheet-changed (tmhost-view-field id))
           (tmhost--show-point (tmhost-view-input-end (tmhost-view-field id)))
           (tmhost--lock)))))))

(defun tmhost--show-point (position)
  "Go to POSITION, in the windows that show the buffer too."
  (goto-char position)
  (dolist (window (get-buffer-window-list nil nil t))
    (set-window-point window position)))

(defun tmhost-insert-after (name &optional text)
  "Make a field after the one at point, in the session NAME, with TEXT.
With a prefix argument the session is asked for."
  (interactive (list (tmhost--wanted-session)))
  (let ((field (tmhost-view-field-at (point))))
    (tmhost--insert (if field (tmhost-field-id field) 0) name (or text ""))
    (tmhost--await)))

(defun tmhost-insert-before (name &optional text)
  "Make a field before the one at point, in the session NAME, with TEXT.
With a prefix argument the session is asked for."
  (interactive (list (tmhost--wanted-session)))
  (let ((field (tmhost-view-field-at (point))))
    (tmhost--insert (if field (tmhost-view-after (tmhost-field-id field)) 0)
                    name (or text ""))
    (tmhost--await)))

(defun tmhost--wanted-session ()
  "The session of a new field."
  (if current-prefix-arg
      (completing-read "Session: " (mapcar #'tmhost-session-name
                                           tmhost-sheet-sessions)
                       nil t)
    (tmhost--session-name)))

(defun tmhost-remove ()
  "Remove the field at point."
  (interactive)
  (let ((field (tmhost--field)))
    (when (or noninteractive (string-empty-p (tmhost-view-text field))
              (y-or-n-p (format "Remove #%d? " (tmhost-field-id field))))
      (tmhost-talk-send
       (format "remove %d" (tmhost-field-id field))
       (lambda (reply)
         (if (not (equal (alist-get 'type reply) "done"))
             (message "Not removed: %s" (tmhost-sheet-refusal reply))
           (tmhost-sheet-forget field)
           (tmhost--lock))))
      (tmhost--await))))

(defun tmhost--move (field after)
  "Move FIELD after the one with the number AFTER."
  (tmhost-talk-send
   (format "move %d %d" (tmhost-field-id field) after)
   (lambda (reply)
     (if (equal (alist-get 'type reply) "done")
         (tmhost-sheet-moved field after)
       (message "Not moved: %s" (tmhost-sheet-refusal reply)))))
  (tmhost--await))

(defun tmhost-move-up ()
  "Move the field at point in front of the one before it."
  (interactive)
  (let ((before (tmhost-view-after (tmhost--id))))
    (if (eql before 0)
        (user-error "It is the first one")
      (tmhost--move (tmhost--field) (tmhost-view-after before)))))

(defun tmhost-move-down ()
  "Move the field at point after the one after it."
  (interactive)
  (let ((next (cadr (memql (tmhost--id) tmhost-view-order))))
    (if next
        (tmhost--move (tmhost--field) next)
      (user-error "It is the last one"))))

(defun tmhost-next ()
  "Go to the input of the next field."
  (interactive)
  (tmhost--go-to (cadr (memql (tmhost--id) tmhost-view-order))))

(defun tmhost-previous ()
  "Go to the input of the field before."
  (interactive)
  (tmhost--go-to (tmhost-view-after (tmhost--id))))

(defun tmhost--go-to (id)
  "Go to the input of the field with the number ID."
  (let ((field (tmhost-view-field id)))
    (if field
        (goto-char (tmhost-view-head-end field))
      (user-error "No field there"))))

(defun tmhost-view-output ()
  "Show the whole output of the field at point in a buffer of its own."
  (interactive)
  (let ((field (tmhost--field)))
    (with-current-buffer (get-buffer-create
                          (format "*tmhost output %d*" (tmhost-field-id field)))
      (let ((inhibit-read-only t))
        (erase-buffer)
        (insert (tmhost-text-harmless (or (tmhost-field-shown field) ""))))
      (goto-char (point-min))
      (special-mode)
      (pop-to-buffer (current-buffer)))))

;;; Sessions

(defun tmhost-new-session (name words tab)
  "Make the session NAME, whose interpreter is started by WORDS.
TAB says that it answers requests of completions.  Give NAME."
  (interactive (list (read-string "Name of the session: ")
                     (read-string "Words of its interpreter: ")
                     (y-or-n-p "Does it answer completions? ")))
  (tmhost-talk-send
   (format "session %s %s %s" name (if tab "tab" "plain") words)
   (lambda (reply)
     (if (equal (alist-get 'type reply) "done")
         (tmhost-sheet-add-session
          (tmhost-session-make :name name :words (split-string words " ")
                               :tab tab))
       (message "No session was made: %s" (tmhost-sheet-refusal reply)))))
  (tmhost--await)
  name)

(defun tmhost-sessions ()
  "Show the sessions."
  (interactive)
  (let ((sessions tmhost-sheet-sessions))
    (with-help-window "*tmhost sessions*"
      (dolist (session sessions)
        (princ (format "%s: %s\n    %s%s%s\n"
                       (tmhost-session-name session)
                       (tmhost-text-harmless
                        (mapconcat #'identity (tmhost-session-words session)
                                   " "))
                       (if (tmhost-session-life session) "runs" "doesn't run")
                       (if (tmhost-session-tab session) ", completes" "")
                       (if (tmhost-session-busy session)
                           (format ", is at #%d" (tmhost-session-busy session))
                         "")))))))

;;; Completions

(defun tmhost-completion-at-point ()
  "What can stand at point, by the interpreter of the field.
It is asked about the text as it stands here, which isn't saved by that."
  (let* ((field (tmhost-view-field-at (point)))
         (session (and field (tmhost-sheet-session
                              (tmhost-field-session field)))))
    (when (and session (tmhost-session-tab session)
               (not (tmhost-session-busy session))
               (<= (tmhost-view-head-end field) (point)
                   (tmhost-view-input-end field)))
      (tmhost--completions field (tmhost--ask-completions field)))))

(defun tmhost--ask-completions (field)
  "What can stand at point in FIELD; nil where that isn't reported in time."
  (let* ((begin (tmhost-view-head-end field))
         (text-to (lambda (end)
                    (tmhost-text-input
                     (buffer-substring-no-properties begin end))))
         (is-over nil) (reported nil))
    (tmhost-sheet-complete field
                           (funcall text-to (tmhost-view-input-end field))
                           (tmhost-text-bytes (funcall text-to (point)))
                           (lambda (object)
                             (setq reported object is-over t)))
    (tmhost-talk-wait (lambda () is-over) tmhost-completion-patience)
    reported))

(defun tmhost--completions (field reported)
  "What completion takes of what was REPORTED of FIELD, or nil."
  (let* ((root (and reported (tmhost-text-of (alist-get 'root reported))))
         (begin (and root (- (point) (length root)))))
    (when (and reported (>= begin (tmhost-view-head-end field))
               (equal root (buffer-substring-no-properties begin (point))))
      (let ((words (mapcar (lambda (rest)
                             (concat root (tmhost-text-of rest)))
                           (alist-get 'rest reported))))
        (list begin (point)
              (cl-remove-if-not
               (lambda (word) (equal word (tmhost-text-harmless word)))
               words)
              :exclusive 'no)))))

(provide 'tmhost-commands)
;;; tmhost-commands.el ends here
