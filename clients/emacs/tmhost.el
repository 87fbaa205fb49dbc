;;; tmhost.el --- Worksheets of tmhost  -*- lexical-binding: t; -*-

;; Version: 0.1
;; Package-Requires: ((emacs "27.1"))
;; Keywords: languages, processes

;;; Commentary:

;; `M-x tmhost-open' opens a worksheet.  Its buffer has the fields in their
;; order.  Their inputs can be changed, and are saved a moment later; what the
;; line above a field calls saved or answered is on the disk.

;;; Code:

(require 'cl-lib)
(require 'subr-x)
(require 'tmhost-talk)
(require 'tmhost-text)
(require 'tmhost-view)
(require 'tmhost-sheet)
(require 'tmhost-reported)

(defcustom tmhost-save-delay 1.0
  "Seconds of rest after which changed inputs are saved; nil for never."
  :type '(choice number (const nil))
  :group 'tmhost)

(defcustom tmhost-patience 10.0
  "Seconds in which a reply of the program is waited for."
  :type 'number
  :group 'tmhost)

(defcustom tmhost-completion-patience 2.0
  "Seconds in which an interpreter has to tell completions."
  :type 'number
  :group 'tmhost)

(defvar-local tmhost--path nil
  "The file of the worksheet.")
(defvar-local tmhost--is-shown nil
  "Whether the worksheet was reported.")
(defvar-local tmhost--end nil
  "How the program has ended: a string, nil while it runs.")
(defvar-local tmhost--timer nil
  "The timer that saves.")

(defvar tmhost-mode-map
  (let ((map (make-sparse-keymap)))
    (pcase-dolist (`(,keys . ,command)
                   '(("C-c C-c" . tmhost-evaluate)
                     ("C-c C-b" . tmhost-evaluate-all)
                     ("C-c C-f" . tmhost-evaluate-from-here)
                     ("C-c C-j" . tmhost-insert-after)
                     ("C-c C-o" . tmhost-insert-before)
                     ("C-c C-d" . tmhost-remove)
                     ("C-c <up>" . tmhost-move-up)
                     ("C-c <down>" . tmhost-move-down)
                     ("C-c C-n" . tmhost-next)
                     ("C-c C-p" . tmhost-previous)
                     ("C-c C-i" . tmhost-interrupt)
                     ("C-c C-k" . tmhost-stop)
                     ("C-c C-s" . tmhost-sessions)
                     ("C-c C-w" . tmhost-new-session)
                     ("C-c C-v" . tmhost-view-output)
                     ("C-c C-r" . tmhost-reopen)
                     ("TAB" . completion-at-point)))
      (define-key map (kbd keys) command))
    map)
  "Keys of worksheets.")

(define-derived-mode tmhost-mode nil "Tmhost"
  "Major mode for worksheets of tmhost: use \\[tmhost-open].

A field has a line with its number, its session and what there is to be said
of it, then its prompt and its input, and then its output.  The input alone can
be changed, and may have several lines.

\\{tmhost-mode-map}"
  (setq-local tmhost-view-fields (make-hash-table)
              tmhost-talk-handler #'tmhost-reported-take
              tmhost-talk-ended #'tmhost--ended
              header-line-format '(:eval (tmhost--header))
              bidi-paragraph-direction 'left-to-right
              require-final-newline nil
              buffer-read-only t
              buffer-offer-save t
              revert-buffer-function (lambda (&rest _) (tmhost-refresh)))
  (add-hook 'after-change-functions #'tmhost--after-change nil t)
  (add-hook 'write-contents-functions #'tmhost-save nil t)
  (add-hook 'completion-at-point-functions #'tmhost-completion-at-point nil t)
  (add-hook 'kill-buffer-query-functions #'tmhost--may-kill nil t)
  (add-hook 'kill-buffer-hook #'tmhost--killed nil t)
  (add-hook 'change-major-mode-hook #'tmhost--killed nil t)
  (when tmhost-save-delay
    (setq tmhost--timer (run-with-idle-timer tmhost-save-delay t
                                             #'tmhost--rest
                                             (current-buffer)))))

(put 'tmhost-mode 'mode-class 'special)

(defun tmhost--header ()
  "What stands above the buffer."
  (let ((unsaved (length (tmhost-sheet-unsaved))))
    (concat " " (abbreviate-file-name (or tmhost--path ""))
            (cond (tmhost--end (format "  ENDED: %s" tmhost--end))
                  ((not tmhost--is-shown) "  opening")
                  ((> unsaved 0) (format "  %d not saved" unsaved))
                  ((null tmhost-view-order) "  no fields: C-c C-j makes one")
                  (t "  saved")))))

;;; Opening and ending

;;;###autoload
(defun tmhost-open (path)
  "Open the worksheet at PATH, and make it where it isn't there and is wanted.
Interpreters run in its folder."
  (interactive "FWorksheet: ")
  (when (file-remote-p path)
    (user-error "A worksheet has to be on this machine"))
  (let* ((path (expand-file-name path)) (buffer (tmhost--buffer-of path)))
    (unless buffer
      (tmhost--make-sure-of path)
      (setq buffer (generate-new-buffer
                    (format "*tmhost %s*" (file-name-nondirectory path))))
      (with-current-buffer buffer
        (setq default-directory (file-name-directory path))
        (tmhost-mode)
        (setq tmhost--path path)
        (tmhost--start)))
    (pop-to-buffer-same-window buffer)))

(defun tmhost--buffer-of (path)
  "The buffer of the worksheet at PATH, where it has one."
  (cl-find-if (lambda (buffer)
                (let ((other (buffer-local-value 'tmhost--path buffer)))
                  (and other (equal (file-truename other)
                                    (file-truename path)))))
              (buffer-list)))

(defun tmhost--make-sure-of (path)
  "Make the worksheet at PATH where it isn't there."
  (unless (file-exists-p path)
    (unless (or noninteractive
                (y-or-n-p (format "There is no worksheet %s.  Make it? " path)))
      (user-error "No worksheet was made"))
    (with-temp-buffer
      (unless (eql 0 (call-process tmhost-program nil t nil "create" path))
        (user-error "No worksheet was made: %s" (string-trim (buffer-string)))))))

(defun tmhost--start ()
  "Start the program, and show the worksheet."
  (setq tmhost--end nil)
  (tmhost-talk-start tmhost--path)
  (tmhost-refresh)
  (tmhost-talk-wait (lambda () tmhost--is-shown) tmhost-patience)
  (unless tmhost--is-shown
    (message "tmhost: %s" (or tmhost--end "it says nothing yet"))))

(defun tmhost-refresh ()
  "Show the worksheet again, with the inputs that aren't saved."
  (interactive)
  (setq tmhost--is-shown nil)
  (tmhost-talk-send "print" #'tmhost--show))

(defun tmhost--show (sheet)
  "Show the worksheet whose fields were reported before SHEET."
  (when (equal (alist-get 'type sheet) "sheet")
    (let* ((field (tmhost-view-field-at (point)))
           (id (and field (tmhost-field-id field)))
           (offset (and field (- (point) (tmhost-field-place field)))))
      (tmhost-reported-show sheet (tmhost-sheet-drafts))
      (setq tmhost--is-shown t
            field (tmhost-view-field id))
      (goto-char (if field
                     (min (+ (tmhost-field-place field) offset) (point-max))
                   (point-min))))
    (tmhost--lock)))

(defun tmhost--lock ()
  "Let nothing be typed where there is no field."
  (setq buffer-read-only (null tmhost-view-order))
  (force-mode-line-update))

(defun tmhost-reopen ()
  "Start the program again where it has ended; inputs that aren't saved stay."
  (interactive)
  (if (tmhost-talk-is-live)
      (message "It runs")
    (tmhost--start)))

(defun tmhost--ended (how)
  "The program has ended; HOW is a string."
  (setq tmhost--end how)
  (tmhost-reported-cut-off)
  (force-mode-line-update)
  (message "tmhost has ended: %s.  What was saved or answered is kept" how))

(defun tmhost--may-kill ()
  "Whether the buffer may be killed: it is saved, or the user agrees."
  (ignore-errors (tmhost-save))
  (or noninteractive
      (not (or (tmhost-sheet-unsaved)
               (cl-some #'tmhost-session-busy tmhost-sheet-sessions)))
      (yes-or-no-p "Something isn't saved, or waits for its answer.  Kill? ")))

(defun tmhost--killed ()
  "The buffer ends, and with it the program."
  (when tmhost--timer
    (cancel-timer tmhost--timer))
  (setq tmhost-talk-ended #'ignore)
  (tmhost-talk-close))

;;; Changes

(defun tmhost--after-change (begin end _)
  "The text from BEGIN to END was changed."
  (save-restriction
    (widen)
    (let ((field (tmhost-view-field-at begin)))
      (when field
        (with-silent-modifications
          (set-text-properties begin end nil))
        (tmhost-sheet-changed field)))))

(defun tmhost--rest (buffer)
  "Nothing was typed for a moment: save what isn't saved in BUFFER."
  (when (buffer-live-p buffer)
    (with-current-buffer buffer
      (save-restriction
        (widen)
        (tmhost-sheet-save-all)))))

(defun tmhost-save ()
  "Save all inputs, and wait until that is reported.  True, so it can be a hook."
  (interactive)
  (dolist (field (tmhost-sheet-unsaved))
    (setf (tmhost-field-refused field) nil))
  (tmhost-sheet-save-all)
  (tmhost-talk-wait
   (lambda () (cl-notany #'tmhost-field-saving (tmhost-sheet-unsaved)))
   tmhost-patience)
  (let ((left (tmhost-sheet-unsaved)))
    (if left
        (message "Not saved: %s" (mapconcat (lambda (field)
                                              (format "#%d" (tmhost-field-id
                                                             field)))
                                            left ", "))
      (message "Saved")))
  (restore-buffer-modified-p (and (tmhost-sheet-unsaved) t))
  t)

(provide 'tmhost)
(require 'tmhost-commands)
;;; tmhost.el ends here
