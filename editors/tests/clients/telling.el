;;; telling.el --- How the scripts for Emacs tell what they have seen -*- lexical-binding: t -*-
;; Each answer is a line of JSON in the file that EMACS_INTO names.
(require 'json)

(defvar rows nil "What was told.")

(defun row-of (value)
  "VALUE with vectors for lists, as JSON has them."
  (if (listp value) (vconcat (mapcar #'row-of value)) value))

(defun told (name value)
  "Tell the VALUE of NAME."
  (push (json-encode (vector name (row-of value))) rows))

(defun await (what is)
  "Wait until IS gives something, which WHAT names; that is what is given."
  (let ((until (+ (float-time) (/ (string-to-number (or (getenv "LONGEST_WAIT") "60000")) 1000.0))) found)
    (while (and (not (setq found (funcall is))) (< (float-time) until)) (accept-process-output nil 0.02))
    (unless found (told "never" what))
    found))

(defun telling (body)
  "Do BODY, write what was told, and end."
  (condition-case failure (funcall body) (error (told "failed" (format "%S" failure))))
  (with-temp-file (getenv "EMACS_INTO") (insert (mapconcat #'identity (nreverse rows) "\n") "\n"))
  (kill-emacs 0))
;;; telling.el ends here
