;;; tmhost-reported.el --- What the program tells  -*- lexical-binding: t; -*-

;;; Commentary:

;; Objects that are about interpreters, and the worksheet as it is printed.

;;; Code:

(require 'cl-lib)
(require 'tmhost-talk)
(require 'tmhost-text)
(require 'tmhost-view)
(require 'tmhost-sheet)

(defvar-local tmhost-reported--fields nil
  "The fields that were reported of a print that isn't over, the last one first.")

(defun tmhost-reported-take (object)
  "Take OBJECT, which is reported of an interpreter or within a print.
An object of another type, and what there isn't, is passed over."
  (let ((type (alist-get 'type object))
        (session (tmhost-sheet-session (alist-get 'session object)))
        (field (tmhost-view-field (alist-get 'id object))))
    (cond
     ((alist-get 'more object)
      (when (equal type "field")
        (push (tmhost-reported--read (alist-get 'field object))
              tmhost-reported--fields)))
     ((not session))
     ((equal type "banner")
      (setf (tmhost-session-life session) (alist-get 'life object))
      (message "%s: %s" (tmhost-session-name session)
               (tmhost-text-harmless
                (tmhost-text-of (alist-get 'shown object)))))
     ((and (equal type "answered") field)
      (tmhost-reported--answered session field object))
     ((equal type "completed")
      (tmhost-reported--completed session (alist-get 'told object)))
     ((equal type "ended")
      (tmhost-reported-ended session (alist-get 'reason object)
                             (alist-get 'lost object))))))

(defun tmhost-reported--answered (session field object)
  "Give FIELD of SESSION the answer in OBJECT."
  (when (eql (tmhost-field-id field) (tmhost-session-busy session))
    (setf (tmhost-session-busy session) nil))
  (setf (tmhost-field-refused field) nil)
  (tmhost-sheet--become field 'answered
                        :prompt (tmhost-text-of (alist-get 'prompt object))
                        :shown (tmhost-text-shown object)
                        :wrong (tmhost-text-is-error
                                (alist-get 'output object)))
  (tmhost-sheet--go-on))

(defun tmhost-reported--completed (session reported)
  "Give REPORTED to the one that has waited longest for completions of SESSION."
  (let ((request (assoc (tmhost-session-name session) tmhost-sheet--requests)))
    (when request
      (setq tmhost-sheet--requests (delq request tmhost-sheet--requests))
      (funcall (cdr request) reported))))

(defun tmhost-reported-ended (session reason lost)
  "The interpreter of SESSION has ended for REASON, and took LOST with it.
Of the fields in LOST the first one keeps the reason, where it has no answer;
so it is looked at."
  (setf (tmhost-session-life session) nil (tmhost-session-busy session) nil)
  (dolist (item lost)
    (let ((field (tmhost-view-field (alist-get 'id item)))
          (is-first (eq item (car lost))))
      (cond ((alist-get 'cursor item)
             (tmhost-reported--completed session nil))
            (field
             (tmhost-sheet--become field (if is-first 'lost 'empty)
                                   :reason (and is-first reason))
             (when is-first
               (tmhost-reported--look field))))))
  (tmhost-sheet--give-up session (format "ended: %s" reason)))

(defun tmhost-reported--look (field)
  "Have FIELD reported again."
  (tmhost-talk-send
   (format "print %d" (tmhost-field-id field))
   (lambda (reply)
     (let ((reported (alist-get 'field reply)))
       (when (and reported (eq field (tmhost-view-field (alist-get 'id reported))))
         (let ((new (tmhost-reported--read reported)))
           (setf (tmhost-field-input field) (tmhost-field-input new))
           (tmhost-sheet--become field (tmhost-field-state new)
                                 :prompt (tmhost-field-prompt new)
                                 :shown (tmhost-field-shown new)
                                 :wrong (tmhost-field-wrong new)
                                 :reason (tmhost-field-reason new))))))))

(defun tmhost-reported--read (reported)
  "The field that is in REPORTED, a FIELD of the protocol."
  (tmhost-field-make
   :id (alist-get 'id reported) :session (alist-get 'session reported)
   :input (tmhost-text-input (alist-get 'input reported))
   :state (intern (alist-get 'state reported)) :reason (alist-get 'reason reported)
   :prompt (and (assq 'prompt reported) (tmhost-text-of (alist-get 'prompt reported)))
   :shown (and (assq 'shown reported) (tmhost-text-shown reported))
   :wrong (tmhost-text-is-error (alist-get 'output reported))))

(defun tmhost-reported--take-over (reported)
  "The field that is REPORTED again: the one that is there, or REPORTED.
Replies that are to come are about the one that is there."
  (let ((field (tmhost-view-field (tmhost-field-id reported))))
    (if (null field)
        reported
      (setf (tmhost-field-input field) (tmhost-field-input reported)
            (tmhost-field-state field) (tmhost-field-state reported)
            (tmhost-field-prompt field) (tmhost-field-prompt reported)
            (tmhost-field-shown field) (tmhost-field-shown reported)
            (tmhost-field-wrong field) (tmhost-field-wrong reported)
            (tmhost-field-reason field) (tmhost-field-reason reported))
      field)))

(defun tmhost-reported--take-over-session (reported)
  "The session of which REPORTED, a SESSION of the protocol, is reported again."
  (let ((session (or (tmhost-sheet-session (alist-get 'name reported))
                     (tmhost-session-make :name (alist-get 'name reported)
                                          :words (alist-get 'words reported)
                                          :tab (alist-get 'tab reported)))))
    (setf (tmhost-session-life session) (alist-get 'life reported))
    session))

(defun tmhost-reported-show (sheet drafts)
  "Show the fields that were reported before SHEET, the end of a print.
DRAFTS are texts that weren't saved: they are put back, and one whose field is
gone into the kill ring."
  (setq tmhost-sheet-sessions (mapcar #'tmhost-reported--take-over-session
                                      (alist-get 'sessions sheet))
        tmhost-sheet--changed nil)
  (tmhost-view-show (mapcar #'tmhost-reported--take-over
                            (nreverse tmhost-reported--fields)))
  (setq tmhost-reported--fields nil
        tmhost-sheet--queue (cl-remove-if-not #'tmhost-view-field
                                              tmhost-sheet--queue))
  (pcase-dolist (`(,id . ,text) drafts)
    (tmhost-reported--put-back id text))
  (dolist (id tmhost-view-order)
    (let* ((field (tmhost-view-field id))
           (session (tmhost-sheet--session-of field)))
      (when (and (eq (tmhost-field-state field) 'waiting)
                 (not (tmhost-session-busy session)))
        (setf (tmhost-session-busy session) id))
      (tmhost-sheet--say field)))
  (tmhost-sheet--go-on))

(defun tmhost-reported--put-back (id text)
  "Let the field with the number ID have TEXT, which isn't saved."
  (let ((field (tmhost-view-field id)))
    (if field
        (with-silent-modifications (tmhost-view-set-text field text))
      (kill-new (tmhost-text-lines text))
      (message "Field %d is gone; its text is in the kill ring" id))))

(defun tmhost-reported-cut-off ()
  "The program has ended: nothing that is under way comes to its end.
A field that it was asked to evaluate may be without its answer, even
where it hasn't reported that it was asked."
  (setq tmhost-reported--fields nil)
  (let ((asked (delq nil (mapcar #'tmhost-session-busy tmhost-sheet-sessions))))
    (dolist (session tmhost-sheet-sessions)
      (setf (tmhost-session-life session) nil (tmhost-session-busy session) nil))
    (dolist (id tmhost-view-order)
      (let ((field (tmhost-view-field id)))
        (setf (tmhost-field-saving field) nil (tmhost-field-queued field) nil)
        (if (or (eq (tmhost-field-state field) 'waiting) (memql id asked))
            (tmhost-sheet--become field 'lost :reason "tmhost ended")
          (tmhost-sheet--say field)))))
  (setq tmhost-sheet--queue nil)
  (while tmhost-sheet--requests
    (funcall (cdr (pop tmhost-sheet--requests)) nil)))

(provide 'tmhost-reported)
;;; tmhost-reported.el ends here
