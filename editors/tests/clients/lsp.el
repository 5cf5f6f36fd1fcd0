;;; lsp.el --- What Emacs gets of the language server by lsp-mode -*- lexical-binding: t -*-
;; Each answer is a line of JSON in the file that EMACS_INTO names.
(package-initialize)
(require 'lsp-mode)
(require 'lgp-mode)
(load (expand-file-name "telling.el" (file-name-directory load-file-name)))

(setq lgp-language-server (list "node" (getenv "EMACS_SERVER")) lsp-auto-guess-root t lsp-enable-file-watchers nil lsp-restart 'ignore lsp-warn-no-matched-clients nil
      lsp-session-file (expand-file-name "lsp-session" (getenv "HOME")))
(telling
 (lambda ()
   (find-file (getenv "EMACS_SOURCE"))
   (lsp-workspace-folders-add default-directory)
   (lsp)
   (await "a workspace" (lambda () (lsp-workspaces)))
   (told "language" (lsp-buffer-language))
   (told "faults" (await "a fault" (lambda () (let (found) (maphash (lambda (_ faults) (setq found (append (mapcar (lambda (it) (lsp-get it :message)) (append faults nil)) found))) (lsp-diagnostics)) found))))
   (goto-char (point-min))
   (search-forward "a three")
   (told "hover" (lsp-get (lsp-get (lsp-request "textDocument/hover" (lsp--text-document-position-params)) :contents) :value))))
;;; lsp.el ends here
