;;; eglot.el --- What Emacs gets of the language server by eglot -*- lexical-binding: t -*-
;; Each answer is a line of JSON in the file that EMACS_INTO names.
(package-initialize)
(require 'eglot)
(require 'lgp-mode)
(load (expand-file-name "telling.el" (file-name-directory load-file-name)))

(defun faults ()
  "The faults of the buffer."
  (mapcar (lambda (it) (list (line-number-at-pos (flymake-diagnostic-beg it)) (buffer-substring-no-properties (flymake-diagnostic-beg it) (flymake-diagnostic-end it)) (flymake-diagnostic-text it)))
          (flymake-diagnostics)))

(defun look ()
  "Ask about the source."
  (told "faults" (await "a fault" #'faults))
  (goto-char (point-min))
  (search-forward "a three")
  (backward-char 2)
  (let* ((server (eglot--current-server-or-lose))
         (hover (jsonrpc-request server :textDocument/hover (eglot--TextDocumentPositionParams))))
    (told "hover" (plist-get (plist-get hover :contents) :value)))
  (xref-find-definitions (symbol-name 'three))
  (told "definition" (line-number-at-pos))
  (told "symbols" (mapcar #'car (cdar (funcall imenu-create-index-function)))))

(defun change ()
  "Change the source by the server."
  (goto-char (point-min))
  (search-forward "b tow")
  (replace-match "b two")
  (eglot--signal-textDocument/didChange) ; as when Emacs is idle
  (await "no fault" (lambda () (null (faults))))
  (backward-char 1)
  (eglot-rename "pair")
  (told "renamed" (buffer-string))
  (eglot-format-buffer)
  (told "formatted" (buffer-string))
  (goto-char (point-min))
  (delete-region (point) (line-end-position))
  (insert "first   frac 5")
  (eglot--signal-textDocument/didChange)
  (await "another fault" #'faults)
  (let ((actions (eglot-code-actions (line-beginning-position) (line-end-position))))
    (told "actions" (mapcar (lambda (it) (plist-get it :title)) actions))
    (eglot--apply-workspace-edit (plist-get (aref (vconcat actions) 0) :edit)))
  (told "mended" (buffer-substring-no-properties (point-min) (save-excursion (goto-char (point-min)) (line-end-position)))))

(setq eglot-sync-connect t eglot-connect-timeout 60 eglot-confirm-server-initiated-edits nil xref-prompt-for-identifier nil)
(setf (alist-get 'lgp-mode eglot-server-programs) (list "node" (getenv "EMACS_SERVER")))
(telling
 (lambda ()
   (find-file (getenv "EMACS_SOURCE"))
   (apply #'eglot (eglot--guess-contact))
   (look)
   (change)))
;;; eglot.el ends here
