;;; dap.el --- What Emacs gets of the debug adapter by dap-mode -*- lexical-binding: t -*-
;; Each answer is a line of JSON in the file that EMACS_INTO names.
(package-initialize)
(require 'dap-mode)
(require 'lgp-mode)
(load (expand-file-name "telling.el" (file-name-directory load-file-name)))

(defvar stops 0 "How often the machine has stopped.")
(add-hook 'dap-stopped-hook (lambda (_) (setq stops (1+ stops))))

(defun stopped-at (what deed)
  "Do DEED, wait until the machine stops, and tell of WHAT where that is."
  (let ((before stops))
    (funcall deed)
    (await what (lambda () (and (> stops before) (dap--debug-session-active-frame (dap--cur-session)))))
    (told what (gethash "name" (dap--debug-session-active-frame (dap--cur-session))))))

(defun evaluated (line)
  "The reply to LINE in the console."
  (let (result)
    (dap--send-message (dap--make-request "evaluate" (list :expression line :context "repl"))
                       (lambda (response) (setq result (or (gethash "result" (or (gethash "body" response) (make-hash-table))) (gethash "message" response)))) (dap--cur-session))
    (await line (lambda () result))))

(defun marked ()
  "The numbers of the lines that have a mark."
  (sort (delete-dups (mapcar (lambda (it) (line-number-at-pos (overlay-start it))) (overlays-in (point-min) (point-max)))) #'<))

(defun dap-clock ()
  "What `dap-eval' shows of the machine's clock."
  (let ((before (buffer-size (messages-buffer))))
    (dap-eval "@clock")
    (await "the clock" (lambda () (with-current-buffer (messages-buffer) (> (buffer-size) before))))
    (with-current-buffer (messages-buffer) (buffer-substring-no-properties (1+ before) (point-max)))))

(defun scopes ()
  "The names of the scopes."
  (let (names)
    (dap--send-message (dap--make-request "scopes" (list :frameId 1))
                       (lambda (response) (setq names (mapcar (lambda (it) (gethash "name" it)) (append (gethash "scopes" (gethash "body" response)) nil)))) (dap--cur-session))
    (await "scopes" (lambda () names))))

;; what docs/EDITORS.md sets
(with-temp-buffer
  (insert (getenv "EMACS_SETTINGS"))
  (eval-buffer))
(setq lgp-debug-adapter (list "node" (getenv "EMACS_SERVER")) lsp-restart 'ignore dap-auto-configure-features nil)
(telling
 (lambda ()
   (told "keys" (mapcar (lambda (key) (format "%s" (lookup-key lgp-mode-map (kbd key)))) '("C-c C-b" "C-c C-r")))
   (find-file (getenv "EMACS_SOURCE"))
   (goto-char (point-min))
   (forward-line 2)
   (dap-breakpoint-add)
   (stopped-at "entry" (lambda () (dap-debug (list :type "lgp30" :request "launch" :name "LGP-30" :stopOnEntry t))))
   (told "marked" (marked))
   (stopped-at "breakpoint" (lambda () (call-interactively #'dap-continue)))
   (stopped-at "next" (lambda () (call-interactively #'dap-next)))
   (stopped-at "end" (lambda () (call-interactively #'dap-continue)))
   (stopped-at "step back" (lambda () (call-interactively #'lgp-step-back)))
   (stopped-at "reverse continue" (lambda () (call-interactively #'lgp-reverse-continue)))
   (told "console" (evaluated "words two 1"))
   (told "clock" (dap-clock))
   (told "scopes" (scopes))))
;;; dap.el ends here
