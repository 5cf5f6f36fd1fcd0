;;; tokens.el --- The tokens of files, as the grammar for Emacs has them -*- lexical-binding: t -*-
(require 'lgp-mode)

(defun tokens--rows ()
  "A line for each token of the buffer: its line, column, length and face."
  (font-lock-ensure)
  (goto-char (point-min))
  (let (rows)
    (while (not (eobp))
      (let* ((face (get-text-property (point) 'face))
             (next (next-single-property-change (point) 'face nil (line-end-position)))
             (end (if (eq next (point)) (1+ (point)) next)))
        (when (and face (not (eolp)))
          (push (format "%d %d %d %s" (line-number-at-pos) (- (point) (line-beginning-position)) (- end (point)) face) rows))
        (goto-char (min end (point-max)))))
    (nreverse rows)))

(defun tokens-write ()
  "Write the tokens of the files that the command line names, each beside the file."
  (dolist (file command-line-args-left)
    (with-temp-buffer
      (insert-file-contents file)
      (lgp-mode)
      (let ((rows (tokens--rows)))
        (with-temp-file (concat file ".tokens") (insert (mapconcat #'identity rows "\n") "\n"))))))
;;; tokens.el ends here
