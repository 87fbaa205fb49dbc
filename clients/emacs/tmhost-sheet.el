;;; tmhost-sheet.el --- Saving and evaluation of fields  -*- lexical-binding: t; -*-

;;; Commentary:

;; A field is said to be saved where the program has reported that it has the text
;; of the buffer, and an answer is shown where the program has reported it: both
;; are on the disk then.  What isn't saved is sent again.
;;
;; Fields that are to be evaluated wait here, and an interpreter is given one
;; at a time.  So one that ends takes the answer of one field alone, and those
;; after it, which would miss its variables, keep theirs.

;;; Code:

(require 'cl-lib)
(require 'tmhost-talk)
(require 'tmhost-text)
(require 'tmhost-view)

(cl-defstruct (tmhost-session (:constructor tmhost-session-make) (:copier nil))
  "A session.  LIFE is the number of its process, nil where none runs, and BUSY
the number of the field that it is at."
  name words tab life busy)

(defvar-local tmhost-sheet-sessions nil
  "The sessions, in the order in which they were made.")
(defvar-local tmhost-sheet--changed nil
  "The numbers of the fields whose text may not be saved.")
(defvar-local tmhost-sheet--queue nil
  "The numbers of the fields that are to be evaluated, in order.")
(defvar-local tmhost-sheet--requests nil
  "Who waits for completions: conses of a session's name and a function.")

(defun tmhost-sheet-session (name)
  "The session with the name NAME, or nil."
  (cl-find name tmhost-sheet-sessions :key #'tmhost-session-name :test #'equal))

(defun tmhost-sheet--session-of (field)
  "The session of FIELD."
  (tmhost-sheet-session (tmhost-field-session field)))

;;; What a field says

(defun tmhost-sheet-is-saved (field)
  "Whether the program has reported that FIELD has the text of the buffer."
  (equal (tmhost-view-text field) (tmhost-field-input field)))

(defun tmhost-sheet--status (field)
  "What is said of FIELD."
  (cond ((tmhost-field-saving field) "saving")
        ((not (tmhost-sheet-is-saved field))
         (if (tmhost-field-refused field)
             (format "not saved: %s" (tmhost-field-refused field))
           "not saved"))
        ((or (eq (tmhost-field-state field) 'waiting)
             (eql (tmhost-field-id field)
                  (tmhost-session-busy (tmhost-sheet--session-of field))))
         "running")
        ((tmhost-field-queued field) "saved, to be evaluated")
        ((eq (tmhost-field-state field) 'lost)
         (format "lost: %s" (tmhost-field-reason field)))
        ((eq (tmhost-field-state field) 'answered)
         (if (tmhost-field-wrong field)
             "saved, answered by an error"
           "saved, answered"))
        (t "saved")))

(defun tmhost-sheet--say (field)
  "Let FIELD say what there is to be said of it, where it is still there."
  (when (eq field (tmhost-view-field (tmhost-field-id field)))
    (tmhost-view-say field (concat "  " (tmhost-sheet--status field)))
    (if (and (tmhost-sheet-is-saved field) (not (tmhost-field-saving field)))
        (setq tmhost-sheet--changed
              (delq (tmhost-field-id field) tmhost-sheet--changed))
      (cl-pushnew (tmhost-field-id field) tmhost-sheet--changed))
    (restore-buffer-modified-p (and tmhost-sheet--changed t))))

(defun tmhost-sheet--become (field state &rest members)
  "Let FIELD have STATE, and of MEMBERS its prompt, output and reason."
  (setf (tmhost-field-state field) state
        (tmhost-field-prompt field) (plist-get members :prompt)
        (tmhost-field-shown field) (plist-get members :shown)
        (tmhost-field-wrong field) (plist-get members :wrong)
        (tmhost-field-reason field) (plist-get members :reason))
  (when (eq field (tmhost-view-field (tmhost-field-id field)))
    (tmhost-view-draw field)
    (tmhost-sheet--say field)))

;;; Fields and sessions that come, go and move

(defun tmhost-sheet-forget (field)
  "FIELD was removed."
  (let ((id (tmhost-field-id field)))
    (tmhost-view-remove field)
    (setq tmhost-sheet--changed (delq id tmhost-sheet--changed)
          tmhost-sheet--queue (delq id tmhost-sheet--queue))
    (restore-buffer-modified-p (and tmhost-sheet--changed t))))

(defun tmhost-sheet-moved (field after)
  "FIELD was moved after the one with the number AFTER."
  (tmhost-view-move field after)
  (tmhost-sheet--say field))

(defun tmhost-sheet-add-session (session)
  "SESSION was made."
  (setq tmhost-sheet-sessions (append tmhost-sheet-sessions (list session))))

;;; Saving

(defun tmhost-sheet-changed (field)
  "The text of FIELD was changed."
  (setf (tmhost-field-refused field) nil)
  (tmhost-sheet--say field))

(defun tmhost-sheet-save (field &optional then)
  "Send the text of FIELD where it isn't saved.
THEN is a function that is called with whether the text is on the disk."
  (let ((text (tmhost-view-text field)) (then (or then #'ignore)))
    (cond
     ((tmhost-field-saving field)
      (push then (tmhost-field-after field)))
     ((tmhost-sheet-is-saved field)
      (funcall then t))
     (t
      (setf (tmhost-field-saving field) text)
      (tmhost-talk-send (format "set %d %s" (tmhost-field-id field) text)
                        (lambda (reply)
                          (tmhost-sheet--saved field text reply then)))
      (tmhost-sheet--say field)))))

(defun tmhost-sheet--saved (field text reply then)
  "Take REPLY to the line that gave FIELD the text TEXT; THEN is called with it.
Whoever wanted it saved meanwhile means the text that stands there now."
  (let ((is-done (equal (alist-get 'type reply) "done"))
        (after (nreverse (tmhost-field-after field))))
    (setf (tmhost-field-saving field) nil (tmhost-field-after field) nil)
    (if is-done
        (progn
          (setf (tmhost-field-input field) text)
          (tmhost-sheet--become field 'empty))
      (setf (tmhost-field-refused field) (tmhost-sheet-refusal reply))
      (tmhost-sheet--say field))
    (funcall then is-done)
    (dolist (one after)
      (if (tmhost-field-refused field)
          (funcall one nil)
        (tmhost-sheet-save field one)))))

(defun tmhost-sheet-refusal (reply)
  "Why REPLY isn't what was asked for."
  (if (equal (alist-get 'type reply) "refused")
      (alist-get 'name reply)
    (alist-get 'type reply)))

(defun tmhost-sheet-unsaved ()
  "The fields whose text isn't reported as saved, in no order."
  (delq nil (mapcar #'tmhost-view-field tmhost-sheet--changed)))

(defun tmhost-sheet-save-all ()
  "Send the text of each field that isn't saved, but of those that can't be."
  (when (tmhost-talk-is-live)
    (dolist (field (tmhost-sheet-unsaved))
      (unless (or (tmhost-field-refused field)
                  (eq (tmhost-field-state field) 'waiting))
        (tmhost-sheet-save field)))))

(defun tmhost-sheet-drafts ()
  "The numbers of the fields that aren't saved, each with its text."
  (mapcar (lambda (field) (cons (tmhost-field-id field)
                                (tmhost-view-text field)))
          (tmhost-sheet-unsaved)))

;;; Evaluation

(defun tmhost-sheet-evaluate (ids)
  "Have the fields with the numbers IDS evaluated, in this order."
  (let ((new (cl-remove-if (lambda (id)
                             (tmhost-field-queued (tmhost-view-field id)))
                           ids)))
    (setq tmhost-sheet--queue (append tmhost-sheet--queue new))
    (dolist (id new)
      (setf (tmhost-field-queued (tmhost-view-field id)) t)
      (tmhost-sheet--say (tmhost-view-field id))))
  (tmhost-sheet--go-on))

(defun tmhost-sheet--go-on ()
  "Give each interpreter that is at nothing its next field."
  (dolist (session tmhost-sheet-sessions)
    (unless (tmhost-session-busy session)
      (let ((id (cl-find-if
                 (lambda (id)
                   (eq session (tmhost-sheet--session-of
                                (tmhost-view-field id))))
                 tmhost-sheet--queue)))
        (when id
          (setq tmhost-sheet--queue (delq id tmhost-sheet--queue))
          (setf (tmhost-session-busy session) id
                (tmhost-field-queued (tmhost-view-field id)) nil)
          (tmhost-sheet--ask session (tmhost-view-field id)))))))

(defun tmhost-sheet--ask (session field)
  "Save FIELD of SESSION, and have it evaluated then."
  (tmhost-sheet-save
   field
   (lambda (is-saved)
     (if (not is-saved)
         (tmhost-sheet--not-asked session field "its text isn't saved")
       (tmhost-talk-send
        (format "eval %d" (tmhost-field-id field))
        (lambda (reply)
          (if (equal (alist-get 'type reply) "asked")
              (progn
                (setf (tmhost-session-life session) (alist-get 'life reply))
                (tmhost-sheet--become field 'waiting))
            (tmhost-sheet--not-asked session field
                                     (tmhost-sheet-refusal reply)))))
       (tmhost-sheet--say field)))))

(defun tmhost-sheet--not-asked (session field why)
  "Take it that FIELD of SESSION can't be evaluated, for the reason WHY.
One that was removed meanwhile doesn't keep the others from it."
  (setf (tmhost-session-busy session) nil)
  (if (eq field (tmhost-view-field (tmhost-field-id field)))
      (tmhost-sheet--give-up session why)
    (tmhost-sheet--go-on))
  (tmhost-sheet--say field))

(defun tmhost-sheet--give-up (session why)
  "Evaluate nothing more that waits in SESSION, for the reason WHY."
  (let ((left (cl-remove-if-not
               (lambda (id)
                 (eq session (tmhost-sheet--session-of (tmhost-view-field id))))
               tmhost-sheet--queue)))
    (setf (tmhost-session-busy session) nil)
    (dolist (id left)
      (setf (tmhost-field-queued (tmhost-view-field id)) nil)
      (setq tmhost-sheet--queue (delq id tmhost-sheet--queue))
      (tmhost-sheet--say (tmhost-view-field id)))
    (message "%s: %s%s" (tmhost-session-name session) why
             (if left (format "; not evaluated: %d more" (length left)) ""))))

(defun tmhost-sheet-complete (field text cursor taker)
  "Ask what can stand in TEXT, in FIELD's place, after CURSOR bytes.
TAKER is given what is reported, nil for nothing."
  (let ((request (cons (tmhost-field-session field) taker)))
    (tmhost-talk-send
     (format "complete %d %d %s" (tmhost-field-id field) cursor text)
     (lambda (reply)
       (if (equal (alist-get 'type reply) "asked")
           (setq tmhost-sheet--requests
                 (append tmhost-sheet--requests (list request)))
         (funcall taker nil))))))

(provide 'tmhost-sheet)
;;; tmhost-sheet.el ends here
