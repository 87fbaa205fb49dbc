;;; tmhost-view.el --- The fields of a worksheet in a buffer  -*- lexical-binding: t; -*-

;;; Commentary:

;; A field is, one after the other: its head (a line with its number and
;; session, and the prompt), its input, and its tail (the output).  The input
;; alone can be changed.  The characters of heads and tails have the property
;; `tmhost-part', so an input is what stands between a head and a tail.

;;; Code:

(require 'cl-lib)
(require 'subr-x)
(require 'tmhost-text)

(defcustom tmhost-output-limit 100000
  "How many characters of an output are shown."
  :type 'integer
  :group 'tmhost)

(defface tmhost-head '((t :inherit font-lock-comment-face))
  "The line above a field."
  :group 'tmhost)
(defface tmhost-prompt '((t :inherit minibuffer-prompt))
  "The prompt of a field."
  :group 'tmhost)
(defface tmhost-output '((t :inherit default))
  "The output of a field."
  :group 'tmhost)

(defface tmhost-error '((t :inherit error))
  "The output of a field that is an error."
  :group 'tmhost)

(cl-defstruct (tmhost-field (:constructor tmhost-field-make) (:copier nil))
  "A field.
ID, SESSION, INPUT, STATE (empty, waiting, answered or lost), PROMPT, SHOWN,
REASON, and whether the output is an error (WRONG) are what the program has reported.  SAVING is the text that was sent and
isn't reported as done, AFTER who waits for that, and REFUSED why one wasn't;
QUEUED is true where the field is to be evaluated, and PLACE is where it
begins in the buffer."
  id session input state prompt shown wrong reason saving after refused queued place)

(defvar-local tmhost-view-fields nil
  "A hash table from numbers to fields.")
(defvar-local tmhost-view-order nil
  "The numbers of the fields in their order.")

(defun tmhost-view-field (id)
  "The field with the number ID, or nil."
  (gethash id tmhost-view-fields))

;;; Places

(defun tmhost-view-head-end (field)
  "Where the input of FIELD begins."
  (next-single-property-change (tmhost-field-place field) 'tmhost-part
                               nil (point-max)))

(defun tmhost-view-input-end (field)
  "Where the input of FIELD ends."
  (let ((begin (tmhost-view-head-end field)))
    (if (get-text-property begin 'tmhost-part)
        begin
      (next-single-property-change begin 'tmhost-part nil (point-max)))))

(defun tmhost-view-end (field)
  "Where FIELD ends."
  (next-single-property-change (tmhost-view-input-end field) 'tmhost-part
                               nil (point-max)))

(defun tmhost-view-text (field)
  "The input of FIELD as it stands in the buffer, in one line."
  (tmhost-text-input (buffer-substring-no-properties
                      (tmhost-view-head-end field)
                      (tmhost-view-input-end field))))

(defun tmhost-view-field-at (position)
  "The field at POSITION, or nil where there is none."
  (unless (= (point-min) (point-max))
    (let ((place (min position (1- (point-max)))))
      (unless (get-text-property place 'tmhost-part)
        (setq place (1- (previous-single-property-change (1+ place)
                                                         'tmhost-part))))
      (tmhost-view-field (get-text-property place 'tmhost-id)))))

(defun tmhost-view-after (id)
  "The number of the field in front of the one with number ID, 0 for none."
  (let ((before (cl-loop for (one next) on tmhost-view-order
                         when (eql next id) return one)))
    (or before 0)))

;;; Changes that aren't the user's

(defun tmhost-view--moved (position begin end delta)
  "Where POSITION is when DELTA more stand in place of BEGIN to END."
  (cond ((>= position end) (+ position delta))
        ((> position begin) begin)
        (t position)))

(defun tmhost-view--shift-undo (begin end delta)
  "Let undo go on to work where DELTA more stand in place of BEGIN to END."
  (cl-flet ((moved (position)
              (if (< position 0)
                  (- (tmhost-view--moved (- position) begin end delta))
                (tmhost-view--moved position begin end delta))))
    (cl-loop for rest on (and (listp buffer-undo-list) buffer-undo-list)
             for entry = (car rest)
             do (pcase entry
                  ((pred integerp) (setcar rest (moved entry)))
                  (`(,(pred integerp) . ,(pred integerp))
                   (setcar rest (cons (moved (car entry)) (moved (cdr entry)))))
                  (`(,(pred stringp) . ,(pred integerp))
                   (setcar rest (cons (car entry) (moved (cdr entry)))))
                  (`(apply ,(pred integerp) . ,_) (setcar rest nil))
                  (`(nil ,_ ,_ ,_ . ,_) (setcar rest nil))))))

(defun tmhost-view--replace (begin end text)
  "Put TEXT in place of what stands from BEGIN to END.
The new text is put in front of the old one, so that a point after the old
one stays there."
  (let ((delta (- (length text) (- end begin))))
    (with-silent-modifications
      (save-excursion
        (goto-char begin)
        (insert text)
        (delete-region (point) (+ (point) (- end begin)))))
    (tmhost-view--shift-undo begin end delta)))

;;; Drawing

(defun tmhost-view--fixed (text part id face)
  "TEXT as PART, head or tail, of the field with number ID, in FACE."
  (propertize text 'read-only t 'tmhost-part part 'tmhost-id id
              'font-lock-face face))

(defun tmhost-view--head (field)
  "The head of FIELD.  Text can be put after it, but not in or before it."
  (let ((id (tmhost-field-id field)) (prompt (tmhost-field-prompt field)))
    (propertize
     (concat (tmhost-view--fixed (format "#%d %s \n" id
                                         (tmhost-field-session field))
                                 'head id 'tmhost-head)
             (tmhost-view--fixed (if prompt (tmhost-text-harmless prompt) "> ")
                                 'head id 'tmhost-prompt))
     'front-sticky '(read-only) 'rear-nonsticky t)))

(defun tmhost-view--shown (field)
  "The output of FIELD as it is shown, which is text and nothing else."
  (let* ((whole (or (tmhost-field-shown field) ""))
         (more (- (length whole) tmhost-output-limit)))
    (concat (tmhost-text-harmless
             (if (> more 0) (substring whole 0 tmhost-output-limit) whole))
            (when (> more 0)
              (format "\n[%d characters more: M-x tmhost-view-output]" more)))))

(defun tmhost-view--tail (field)
  "The tail of FIELD."
  (let ((shown (tmhost-view--shown field)))
    (tmhost-view--fixed
     (concat "\n" shown
             (unless (or (string-empty-p shown) (string-suffix-p "\n" shown))
               "\n")
             "\n")
     'tail (tmhost-field-id field)
     (if (tmhost-field-wrong field) 'tmhost-error 'tmhost-output))))

(defun tmhost-view-draw (field)
  "Draw the head and the tail of FIELD again, and leave its input."
  (tmhost-view--replace (tmhost-view-input-end field) (tmhost-view-end field)
                        (tmhost-view--tail field))
  (let ((begin (marker-position (tmhost-field-place field))))
    (tmhost-view--replace begin (tmhost-view-head-end field)
                          (tmhost-view--head field))
    (set-marker (tmhost-field-place field) begin)))

(defun tmhost-view-say (field status)
  "Let the head of FIELD say STATUS, without a change of the text."
  (save-excursion
    (goto-char (tmhost-field-place field))
    (let ((place (1- (line-end-position))))
      (unless (equal (get-text-property place 'display) status)
        (with-silent-modifications
          (put-text-property place (1+ place) 'display status))))))

(defun tmhost-view-said (field)
  "What was said of FIELD last, by its head."
  (save-excursion
    (goto-char (tmhost-field-place field))
    (string-trim (or (get-text-property (1- (line-end-position)) 'display)
                     ""))))

(defun tmhost-view--insert (field position text)
  "Insert FIELD at POSITION, with TEXT as its input."
  (let ((whole (concat (tmhost-view--head field) (tmhost-text-lines text)
                       (tmhost-view--tail field))))
    (tmhost-view--replace position position whole)
    (setf (tmhost-field-place field) (copy-marker position t))))

(defun tmhost-view--place-after (id)
  "Where a field after the one with number ID begins; 0 is the front."
  (if (eql id 0) (point-min) (tmhost-view-end (tmhost-view-field id))))

(defun tmhost-view--put (id after)
  "Put ID into the order after the number AFTER."
  (if (eql after 0)
      (push id tmhost-view-order)
    (let ((rest (memql after tmhost-view-order)))
      (setcdr rest (cons id (cdr rest))))))

(defun tmhost-view-add (field after)
  "Add FIELD after the one with the number AFTER, which is 0 for none."
  (puthash (tmhost-field-id field) field tmhost-view-fields)
  (tmhost-view--insert field (tmhost-view--place-after after)
                       (tmhost-field-input field))
  (tmhost-view--put (tmhost-field-id field) after))

(defun tmhost-view--take-out (field)
  "Take FIELD out of the buffer and out of the order."
  (setq tmhost-view-order (delq (tmhost-field-id field) tmhost-view-order))
  (tmhost-view--replace (tmhost-field-place field) (tmhost-view-end field) "")
  (set-marker (tmhost-field-place field) nil)
  (setq buffer-undo-list (and (eq buffer-undo-list t) t)))

(defun tmhost-view-remove (field)
  "Remove FIELD."
  (tmhost-view--take-out field)
  (remhash (tmhost-field-id field) tmhost-view-fields))

(defun tmhost-view-move (field after)
  "Move FIELD after the one with the number AFTER, with point in it."
  (let ((text (tmhost-view-text field))
        (offset (- (point) (tmhost-field-place field)))
        (is-here (eq field (tmhost-view-field-at (point)))))
    (tmhost-view--take-out field)
    (tmhost-view--insert field (tmhost-view--place-after after) text)
    (tmhost-view--put (tmhost-field-id field) after)
    (when is-here
      (goto-char (+ (tmhost-field-place field) offset)))))

(defun tmhost-view-show (fields)
  "Show FIELDS, a list in their order, and nothing else."
  (maphash (lambda (_ field) (set-marker (tmhost-field-place field) nil))
           tmhost-view-fields)
  (with-silent-modifications
    (erase-buffer))
  (setq buffer-undo-list (and (eq buffer-undo-list t) t)
        tmhost-view-fields (make-hash-table)
        tmhost-view-order (mapcar #'tmhost-field-id fields))
  (dolist (field fields)
    (puthash (tmhost-field-id field) field tmhost-view-fields)
    (tmhost-view--insert field (point-max) (tmhost-field-input field))))

(defun tmhost-view-set-text (field text)
  "Let the input of FIELD in the buffer be TEXT, as if it was typed."
  (save-excursion
    (goto-char (tmhost-view-head-end field))
    (delete-region (point) (tmhost-view-input-end field))
    (insert (tmhost-text-lines text))))

(provide 'tmhost-view)
;;; tmhost-view.el ends here
