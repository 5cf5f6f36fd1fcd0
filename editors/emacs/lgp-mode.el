;;; lgp-mode.el --- Sources of the LGP-30, with faults, hover and a debugger -*- lexical-binding: t -*-

;; Version: 0.1.0
;; Package-Requires: ((emacs "27.1"))
;; Keywords: languages
;; SPDX-License-Identifier: MIT OR Apache-2.0

;;; Commentary:

;; A major mode for sources of the LGP-30, a drum computer of 1956.  With eglot or lsp-mode the
;; program lgp30-language-server tells of faults while one types; with dap-mode
;; lgp30-debug-adapter runs programs and goes back.  dap-mode has no commands for the way back: `lgp-step-back' and
;; `lgp-reverse-continue' are these.

;;; Code:

;; the words below are written by editors/grammars.mjs
(defconst lgp-named '("end" "-t" "a" "b" "c" "d" "e" "h" "i" "m" "n" "p" "r" "s" "t" "u" "y" "z")
  "Operations that may have the name of a label after them.")
(defconst lgp-others '("frac" "word" "int" "org")
  "Operations that have a number after them.")
;; the words above are written by editors/grammars.mjs

(defconst lgp-operations (append lgp-named lgp-others)
  "The operations.")

(defgroup lgp nil
  "Sources of the LGP-30."
  :group 'languages)

(defcustom lgp-language-server '("lgp30-language-server" "--stdio")
  "The command of the language server."
  :type '(repeat string))

(defcustom lgp-debug-adapter '("lgp30-debug-adapter" "--stdio")
  "The command of the debug adapter."
  :type '(repeat string))

(defconst lgp--names (concat "\\(?:[^ \t;\n][^ \t\n]*\\)?[ \t]+" (regexp-opt lgp-named) "[ \t]+")
  "What is before an operand that may be a name.")

(defun lgp--kind (from)
  "The group for the word at FROM.
These are label, operation, name, other operand and comment."
  (let ((before (buffer-substring (line-beginning-position) from)))
    (cond ((eq (char-after from) ?\;) 5)
          ((string= before "") 1)
          ((string-match-p "\\`\\(?:[^ \t]+\\)?[ \t]+\\'" before) 2)
          ((and (looking-at-p "[a-z]") (save-excursion (looking-back lgp--names (line-beginning-position)))) 3)
          (t 4))))

(defun lgp--match-word (limit)
  "Find the next word up to LIMIT; the group of its kind is matched."
  (when (re-search-forward "[^ \t\r\n]+" limit t)
    (let* ((from (goto-char (match-beginning 0))) (to (match-end 0)) (kind (lgp--kind from)))
      (goto-char (if (= kind 5) (line-end-position) to))
      (set-match-data (append (list from (point)) (make-list (* 2 (1- kind)) nil) (list from (point))))
      (or (not (= kind 2)) (member (match-string 2) lgp-operations) (lgp--match-word limit)))))

(defconst lgp-font-lock-keywords
  '((lgp--match-word (1 font-lock-function-name-face nil t) (2 font-lock-keyword-face nil t) (3 font-lock-variable-name-face nil t)
                     (4 font-lock-constant-face nil t) (5 font-lock-comment-face nil t)))
  "How a source is coloured.")

(defun lgp-indent-line ()
  "Put the operation of a line below that of the others."
  (interactive)
  (save-excursion
    (back-to-indentation)
    (unless (or (bolp) (looking-at ";")) (indent-line-to 8)))
  (when (and (bolp) (eolp)) (indent-line-to 8)))

(defvar lgp-mode-map
  (let ((map (make-sparse-keymap)))
    (define-key map (kbd "C-c C-b") #'lgp-step-back)
    (define-key map (kbd "C-c C-r") #'lgp-reverse-continue)
    map)
  "The keys of `lgp-mode'.")

(defvar lgp--told nil "The programs of which was said that they are missing.")

(defun lgp--look-for (command)
  "Say once where the program of COMMAND is missing."
  (let ((program (car command)))
    (unless (or (executable-find program) (member program lgp--told))
      (push program lgp--told)
      (message "%s is not found: put it into PATH, or customize the group lgp" program))))

;;;###autoload
(define-derived-mode lgp-mode prog-mode "LGP-30"
  "A mode for sources of the LGP-30."
  (lgp--look-for lgp-language-server)
  (setq-local comment-start "; ")
  (setq-local comment-start-skip "\\(?:^\\|[ \t]\\);+ *")
  (setq-local indent-tabs-mode nil)
  (setq-local indent-line-function #'lgp-indent-line)
  (setq-local font-lock-defaults '(lgp-font-lock-keywords t)))

;;;###autoload
(add-to-list 'auto-mode-alist '("\\.\\(?:source\\|lgp30\\)\\'" . lgp-mode))

(defvar eglot-server-programs)
(with-eval-after-load 'eglot
  (add-to-list 'eglot-server-programs (cons 'lgp-mode lgp-language-server)))

(defvar lsp-language-id-configuration)
(declare-function lsp-register-client "lsp-mode")
(declare-function make-lsp-client "lsp-mode")
(declare-function lsp-stdio-connection "lsp-mode")
(with-eval-after-load 'lsp-mode
  (add-to-list 'lsp-language-id-configuration '(lgp-mode . "lgp30"))
  (lsp-register-client (make-lsp-client :new-connection (lsp-stdio-connection (lambda () lgp-language-server)) :major-modes '(lgp-mode) :server-id 'lgp30)))

;;; The debugger

(declare-function dap-register-debug-provider "dap-mode")
(declare-function dap-register-debug-template "dap-mode")
(declare-function dap--cur-session-or-die "dap-mode")
(declare-function dap--step "dap-mode")

(defun lgp--launch (configuration)
  "What dap-mode wants to know besides CONFIGURATION."
  (lgp--look-for lgp-debug-adapter)
  (append configuration
          (list :dap-server-path lgp-debug-adapter
                :name (or (plist-get configuration :name) "LGP-30")
                :request (or (plist-get configuration :request) "launch")
                :program (or (plist-get configuration :program) (buffer-file-name)))))

(with-eval-after-load 'dap-mode
  (dap-register-debug-provider "lgp30" #'lgp--launch)
  (dap-register-debug-template "LGP-30: this source" (list :type "lgp30" :request "launch" :name "LGP-30" :stopOnEntry t)))

(defun lgp-step-back (session)
  "Go one order back in the debug SESSION."
  (interactive (list (dap--cur-session-or-die)))
  (dap--step "stepBack" session))

(defun lgp-reverse-continue (session)
  "Go back to the last breakpoint of SESSION, or as far as steps are kept."
  (interactive (list (dap--cur-session-or-die)))
  (dap--step "reverseContinue" session))

(provide 'lgp-mode)
;;; lgp-mode.el ends here
