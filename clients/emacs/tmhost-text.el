;;; tmhost-text.el --- Texts of interpreters, which only are shown  -*- lexical-binding: t; -*-

;;; Commentary:

;; What an interpreter wrote is shown as text and is nothing more: it brings no
;; text properties, and characters that aren't seen, or that change the order
;; of others, stand as `\xNN' or `\uNNNN'.

;;; Code:

(require 'seq)

(defconst tmhost-text--steering
  (rx (any (#x00 . #x08) (#x0b . #x1f) (#x7f . #x9f) #xad #x61c #x180e
           #x200b #x200e #x200f (#x2028 . #x202e) (#x2060 . #x206f) #xfeff
           (#xfff9 . #xfffb) (#xe0000 . #xe0fff) (#x3fff80 . #x3fffff)))
  "A character that isn't seen, or that steers; the last are bytes as they are.")

(defconst tmhost-text-line-end "\u2028"
  "What stands in an input of a worksheet for the end of a line.")

(defun tmhost-text--escaped (character)
  "How CHARACTER, a string of one, is written."
  (let ((code (aref character 0)))
    (cond ((>= code #x3fff80) (format "\\x%02x" (- code #x3fff00)))
          ((< code #x100) (format "\\x%02x" code))
          ((< code #x10000) (format "\\u%04x" code))
          (t (format "\\U%08x" code)))))

(defun tmhost-text-harmless (text)
  "TEXT without properties and without characters that steer."
  (replace-regexp-in-string tmhost-text--steering #'tmhost-text--escaped
                            (substring-no-properties text) t t))

(defun tmhost-text-of (value)
  "The string for VALUE, which is one, or bytes in base64.
Bytes of it that aren't UTF-8 are bytes in the string."
  (if (stringp value)
      value
    (decode-coding-string (base64-decode-string (alist-get 'base64 value))
                          'utf-8-unix)))

(defun tmhost-text--is-output (block)
  "Whether BLOCK is one of the channel `output'."
  (and (consp block)
       (equal (alist-get 'kind block) "channel")
       (equal (alist-get 'tag block) "output")))

(defun tmhost-text-is-error (block)
  "Whether BLOCK is an error, or has one.
That is a block of the channel `error', or of `output' in another of these."
  (and (consp block)
       (or (and (equal (alist-get 'kind block) "channel")
                (equal (alist-get 'tag block) "error"))
           (seq-some (lambda (item)
                       (or (tmhost-text-is-error item)
                           (and (tmhost-text--is-output block)
                                (tmhost-text--is-output item))))
                     (alist-get 'items block)))))

(defun tmhost-text--pictures (block)
  "The blocks in BLOCK, or it, that are pictures, as (FORMAT . TEXT)."
  (when (consp block)
    (let ((items (append (alist-get 'items block) nil))
          (format (alist-get 'tag block)))
      (if (and (equal (alist-get 'kind block) "format")
               (stringp format) (string-prefix-p "image/" format)
               (stringp (car items)) (null (cdr items)))
          (list (cons format (car items)))
        (mapcan #'tmhost-text--pictures items)))))

(defun tmhost-text--replaced (whole brief text)
  "TEXT with BRIEF in the place of the first WHOLE in it."
  (with-temp-buffer
    (insert text)
    (goto-char (point-min))
    (let ((case-fold-search nil))
      (when (search-forward whole nil t)
        (replace-match brief t t)))
    (buffer-string)))

(defun tmhost-text-shown (reported)
  "The output in REPORTED as the program prints it, pictures in a few words."
  (let ((text (tmhost-text-of (alist-get 'shown reported))))
    (dolist (picture (tmhost-text--pictures (alist-get 'output reported)) text)
      (setq text (tmhost-text--replaced
                  (format "{%s:%s}" (car picture)
                          (replace-regexp-in-string
                           "[\x00-\x08\x0b-\x1f\x7f]"
                           #'tmhost-text--escaped (cdr picture) t t))
                  (format "{%s: %d bytes}" (car picture)
                          (tmhost-text-bytes (cdr picture)))
                  text)))))

(defun tmhost-text-input (text)
  "The input of a worksheet, one line, that TEXT of a buffer stands for."
  (replace-regexp-in-string "\n" tmhost-text-line-end text t t))

(defun tmhost-text-lines (input)
  "The text of a buffer that INPUT of a worksheet stands for."
  (replace-regexp-in-string tmhost-text-line-end "\n" input t t))

(defun tmhost-text-bytes (text)
  "How many bytes TEXT has in UTF-8."
  (length (encode-coding-string text 'utf-8-unix)))

(provide 'tmhost-text)
;;; tmhost-text.el ends here
